//! A sheet as far as it can be read: its lines, rows and roots, and where their fields stand.
use std::ops::Range;

/// A sheet has at most this many bytes, rows and procedures; labels are below this number.
pub const CEILING: u64 = 65_536;
pub const ROWS: usize = 1_024;
pub const PROCEDURES: usize = 64;
pub const LABELS: usize = 64;

/// The kinds of rows, in the order of their numbers.
pub const KINDS: [&str; 7] = ["skip", "step", "seq", "loop", "async", "finish", "call"];

/// The kinds in words. A sheet spells them, so that an unknown one makes a malformed line.
pub fn kinds() -> String {
    let [before @ .., last] = KINDS;
    format!("A kind is {} or {last}.", before.join(", "))
}

/// A line without its newline, and whether it has one.
#[derive(Clone, Copy)]
pub struct Line<'a> {
    pub bytes: &'a [u8],
    pub ended: bool,
}

/// A row's kind and operands, and where on its line the operands stand.
pub struct Row {
    pub kind: &'static str,
    pub x: usize,
    pub y: usize,
    pub x_at: Range<usize>,
    pub y_at: Range<usize>,
}

/// A procedure's root, and where it stands on its line.
pub struct Root {
    pub row: usize,
    pub at: Range<usize>,
}

pub struct Sheet<'a> {
    pub lines: Vec<Line<'a>>,
    pub rows: Vec<Row>,
    pub roots: Vec<Root>,
}

impl<'a> Sheet<'a> {
    /// The lines, and the rows and roots up to the first line that is neither.
    pub fn read(bytes: &'a [u8]) -> Self {
        let lines = lines(bytes);
        let rows: Vec<Row> = lines.iter().map_while(|line| row(line.bytes)).collect();
        let roots = lines[rows.len()..]
            .iter()
            .map_while(|line| root(line.bytes))
            .collect();
        Sheet { lines, rows, roots }
    }

    /// Whether every line is a row or a root.
    pub fn is_whole(&self) -> bool {
        self.rows.len() + self.roots.len() == self.lines.len()
    }
}

fn lines(bytes: &[u8]) -> Vec<Line<'_>> {
    bytes
        .split_inclusive(|&byte| byte == b'\n')
        .map(|line| match line.strip_suffix(b"\n") {
            Some(bytes) => Line { bytes, ended: true },
            None => Line {
                bytes: line,
                ended: false,
            },
        })
        .collect()
}

fn row(line: &[u8]) -> Option<Row> {
    let [mark, kind, x, y] = fields(line).try_into().ok()?;
    if &line[mark] != b"R" {
        return None;
    }
    Some(Row {
        kind: KINDS
            .into_iter()
            .find(|word| word.as_bytes() == &line[kind.clone()])?,
        x: number(&line[x.clone()])?,
        y: number(&line[y.clone()])?,
        x_at: x,
        y_at: y,
    })
}

fn root(line: &[u8]) -> Option<Root> {
    let [mark, at] = fields(line).try_into().ok()?;
    if &line[mark] != b"P" {
        return None;
    }
    let row = number(&line[at.clone()])?;
    Some(Root { row, at })
}

/// Where the fields of a line stand, parted by tabs.
fn fields(line: &[u8]) -> Vec<Range<usize>> {
    let mut start = 0;
    line.split(|&byte| byte == b'\t')
        .map(|field| {
            let at = start..start + field.len();
            start = at.end + 1;
            at
        })
        .collect()
}

fn number(field: &[u8]) -> Option<usize> {
    if field.is_empty() || field.len() > 4 || !field.iter().all(u8::is_ascii_digit) {
        return None;
    }
    std::str::from_utf8(field).ok()?.parse().ok()
}
