//! The sheet: reading it line by line, and writing a table as one.

use crate::table::{refusal, writable, Refusal, Table};
use crate::SHEET_BYTES;

pub const KEYWORDS: [&str; 7] = ["skip", "step", "seq", "loop", "async", "finish", "call"];

enum Line {
    Row(u8, u16, u16),
    Procedure(u16),
}

/// One to four digits, no leading zero save 0 itself.
fn number(field: &[u8]) -> Option<u16> {
    let text = std::str::from_utf8(field).ok()?;
    let plain = (1..=4).contains(&text.len()) && text.bytes().all(|b| b.is_ascii_digit());
    if !plain || (text.len() > 1 && text.starts_with('0')) {
        return None;
    }
    text.parse().ok()
}

fn line(bytes: &[u8]) -> Option<Line> {
    let fields: Vec<&[u8]> = bytes.split(|&b| b == b'\t').collect();
    match fields[..] {
        [b"R", keyword, x, y] => {
            let kind = KEYWORDS.iter().position(|k| k.as_bytes() == keyword)?;
            Some(Line::Row(kind as u8, number(x)?, number(y)?))
        }
        [b"P", root] => Some(Line::Procedure(number(root)?)),
        _ => None,
    }
}

/// Reads a sheet into a table of at most `rows` rows and `procedures`
/// procedures. The operands are not judged here.
pub fn read(bytes: &[u8], rows: usize, procedures: usize) -> Result<Table, Refusal> {
    if bytes.len() > SHEET_BYTES {
        return Err(refusal(11, 0));
    }
    let mut table = Table::default();
    for (place, with_end) in bytes.split_inclusive(|&b| b == b'\n').enumerate() {
        let formed = with_end.strip_suffix(b"\n").and_then(line);
        match formed {
            Some(Line::Row(kind, x, y)) if table.roots.is_empty() => {
                if table.kinds.len() == rows {
                    return Err(refusal(13, place));
                }
                table.push(kind, x as usize, y as usize);
            }
            Some(Line::Procedure(root)) => {
                if table.roots.len() == procedures {
                    return Err(refusal(13, place));
                }
                table.roots.push(root);
            }
            // No line of the form, or a row line after a procedure line.
            _ => return Err(refusal(12, place)),
        }
    }
    Ok(table)
}

/// The sheet of a table. A kind without a keyword is written as `none`, and a
/// number above 9,999 as it is; neither is read back.
pub fn spell(table: &Table) -> Vec<u8> {
    let mut text = String::new();
    for row in 0..table.kinds.len() {
        let keyword = KEYWORDS.get(table.kinds[row] as usize).unwrap_or(&"none");
        text.push_str(&format!(
            "R\t{keyword}\t{}\t{}\n",
            table.xs[row], table.ys[row]
        ));
    }
    for root in &table.roots {
        text.push_str(&format!("P\t{root}\n"));
    }
    text.into_bytes()
}

/// The sheet that writing a table into `room` bytes gives.
pub fn write(table: &Table, room: usize) -> Result<Vec<u8>, Refusal> {
    writable(table)?;
    let bytes = spell(table);
    if bytes.len() > room {
        return Err(refusal(14, 0));
    }
    Ok(bytes)
}
