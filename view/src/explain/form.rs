//! The first field of a line that is not of the right form.
use std::ops::Range;

use super::sheet::{kinds, Line, KINDS};

/// What is wrong with a line's form: the bytes to mark, and what is due there.
pub struct Fault {
    pub at: Range<usize>,
    pub text: String,
}

type Read<T> = Result<T, Fault>;

fn fault<T>(at: Range<usize>, text: impl Into<String>) -> Read<T> {
    Err(Fault {
        at,
        text: text.into(),
    })
}

/// What is wrong with a line, read field by field from the left; nothing if it is of the right form.
pub fn fault_of(line: Line) -> Option<Fault> {
    let read = match line.bytes {
        [] => empty(line),
        [b'R', ..] => row(line),
        [b'P', ..] => root(line),
        _ => unmarked(line.bytes),
    };
    read.err()
}

fn empty(line: Line) -> Read<()> {
    if line.ended {
        return fault(0..1, "The line is empty. Take it out.");
    }
    Ok(())
}

fn row(line: Line) -> Read<()> {
    const UNUSED: &str = "An operand that is not used is written as 0.";
    let at = tab(line.bytes, 1, "The kind, x and y are missing here.")?;
    let at = keyword(line.bytes, at)?;
    let at = tab(
        line.bytes,
        at,
        &format!("x and y are missing here. {UNUSED}"),
    )?;
    let at = number(line.bytes, at, "x")?;
    let at = tab(line.bytes, at, &format!("y is missing here. {UNUSED}"))?;
    let at = number(line.bytes, at, "y")?;
    end(line, at, "y, the last number of a row")
}

fn root(line: Line) -> Read<()> {
    let at = tab(line.bytes, 1, "The root is missing here.")?;
    let at = number(line.bytes, at, "the root")?;
    end(line, at, "the root, the only number of a procedure")
}

/// A line that begins with neither R nor P.
fn unmarked(line: &[u8]) -> Read<()> {
    const DUE: &str = "A line begins with R for a row or P for a procedure, and a tab.";
    if line.starts_with(b"\xEF\xBB\xBF") {
        return fault(
            0..3,
            format!("A byte order mark stands here. {DUE} Save the sheet without the mark."),
        );
    }
    if line.starts_with(b"\xFF\xFE") || line.starts_with(b"\xFE\xFF") {
        return fault(
            0..2,
            "The file is saved as UTF-16. Save it as plain text, UTF-8 without a byte order mark.",
        );
    }
    if line[0] == b'\r' {
        return returned(line, 0);
    }
    if blank(line[0]) {
        return fault(
            0..run(line, 0, blank),
            format!("Blanks stand before the line. {DUE}"),
        );
    }
    fault(0..word(line, 0), DUE)
}

/// The one tab behind a field that ends here, and what is missing where the line ends instead.
fn tab(line: &[u8], at: usize, missing: &str) -> Read<usize> {
    match line.get(at) {
        None => fault(at..at + 1, missing),
        Some(b'\t') if line.get(at + 1) == Some(&b'\t') => {
            let again = at + 1..run(line, at, |byte| byte == b'\t');
            fault(again, "One tab stands between two fields, not more.")
        }
        Some(b'\t') => Ok(at + 1),
        Some(b' ') => fault(
            at..run(line, at, blank),
            "One tab is due here, and no space.",
        ),
        Some(b'\r') => returned(line, at),
        Some(_) => fault(at..word(line, at), "A tab is due here."),
    }
}

fn keyword(line: &[u8], at: usize) -> Read<usize> {
    let end = word(line, at);
    let found = &line[at..end];
    let known = KINDS.iter().any(|kind| kind.as_bytes() == found);
    let small = KINDS
        .iter()
        .any(|kind| kind.as_bytes().eq_ignore_ascii_case(found));
    if known {
        return Ok(end);
    }
    if small {
        return fault(at..end, "Kinds are written in small letters.");
    }
    let due = kinds();
    match line.get(at) {
        None => fault(
            at..at + 1,
            format!("The kind, x and y are missing here. {due}"),
        ),
        Some(b' ') => fault(at..run(line, at, blank), "No space stands before a field."),
        Some(b'\r') => returned(line, at),
        Some(_) => fault(at..end, format!("There is no such kind. {due}")),
    }
}

fn number(line: &[u8], at: usize, what: &str) -> Read<usize> {
    let end = run(line, at, |byte| byte.is_ascii_digit());
    let digits = &line[at..end];
    if digits.len() > 1 && digits[0] == b'0' {
        return fault(at..end, "A number has no leading zero, save 0 itself.");
    }
    if digits.len() > 4 {
        return fault(at..end, "A number has at most four digits.");
    }
    match line.get(end) {
        None | Some(b'\t') if digits.is_empty() => {
            fault(at..at + 1, format!("A number is missing here: {what}."))
        }
        Some(b' ') if digits.is_empty() => {
            fault(at..run(line, at, blank), "No space stands before a field.")
        }
        Some(b'\r') if digits.is_empty() => returned(line, at),
        Some(&byte) if !parts(byte) => fault(
            end..word(line, end),
            format!("A number, {what}, stands here, and a number has digits alone."),
        ),
        _ => Ok(end),
    }
}

/// The end of a line, behind its last number.
fn end(line: Line, at: usize, last: &str) -> Read<()> {
    match line.bytes.get(at) {
        None if line.ended => Ok(()),
        None => fault(
            at..at + 1,
            "A newline is missing here: each line ends in one, the last one too.",
        ),
        Some(b'\r') => returned(line.bytes, at),
        Some(_) => fault(
            at..line.bytes.len(),
            format!("Nothing stands behind {last}."),
        ),
    }
}

fn returned<T>(line: &[u8], at: usize) -> Read<T> {
    let end = run(line, at, |byte| byte == b'\r');
    fault(at..end, "A carriage return stands here. A line ends in a newline alone: save the sheet with such line ends.")
}

/// Whether a byte can stand between or behind fields, rightly or by mistake.
fn parts(byte: u8) -> bool {
    matches!(byte, b'\t' | b' ' | b'\r')
}

fn blank(byte: u8) -> bool {
    matches!(byte, b'\t' | b' ')
}

/// Where the word that begins here ends.
fn word(line: &[u8], at: usize) -> usize {
    run(line, at, |byte| !parts(byte))
}

/// Where the bytes from here on cease to be such.
fn run(line: &[u8], at: usize, such: impl Fn(u8) -> bool) -> usize {
    at + line[at..].iter().take_while(|&&byte| such(byte)).count()
}
