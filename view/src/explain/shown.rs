//! A line of a sheet as people can read it, with marks under some of its bytes.
use std::ops::Range;

/// How a tab is shown.
#[derive(Clone, Copy, PartialEq)]
pub enum Tabs {
    /// As one blank, where the line is of the right form.
    Blank,
    /// As `\t`, where it matters whether a tab stands there.
    Spelt,
}

/// The widest that a line is shown. What stands before its first mark is of the right form, and so it is short.
const WIDEST: usize = 72;

/// A byte as it is shown, and whether it is marked.
struct Cell {
    text: String,
    marked: bool,
}

/// The line behind its head, and below it the marks. A mark may stand on the place behind the last byte.
pub fn marked(head: &str, line: &[u8], marks: &[Range<usize>], tabs: Tabs) -> String {
    let cells = cells(line, marks, tabs);
    let fitting = fitting(&cells);
    let mut above = String::from(head);
    let mut below = " ".repeat(head.len());
    for cell in &cells[..fitting] {
        let mark = if cell.marked { "^" } else { " " };
        above.push_str(&cell.text);
        below.push_str(&mark.repeat(cell.text.len()));
    }
    if fitting < cells.len() {
        above.push_str("...");
    }
    let mut shown = String::from(above.trim_end());
    shown.push('\n');
    if below.contains('^') {
        shown.push_str(below.trim_end());
        shown.push('\n');
    }
    shown
}

fn cells(line: &[u8], marks: &[Range<usize>], tabs: Tabs) -> Vec<Cell> {
    let is_marked = |at: usize| marks.iter().any(|mark| mark.contains(&at));
    let mut cells: Vec<Cell> = Vec::new();
    for (at, &byte) in line.iter().enumerate() {
        cells.push(Cell {
            text: spelt(byte, tabs),
            marked: is_marked(at),
        });
    }
    if is_marked(line.len()) {
        cells.push(Cell {
            text: String::from(" "),
            marked: true,
        });
    }
    cells
}

/// A byte in printable ASCII, so that as many columns are taken everywhere.
fn spelt(byte: u8, tabs: Tabs) -> String {
    match byte {
        b'\t' if tabs == Tabs::Blank => String::from(" "),
        b'\t' => String::from("\\t"),
        b'\r' => String::from("\\r"),
        b'\\' => String::from("\\\\"),
        b' '..=b'~' => String::from(byte as char),
        _ => format!("\\x{byte:02X}"),
    }
}

/// How many cells are shown: all, if they are not too wide together.
fn fitting(cells: &[Cell]) -> usize {
    let mut width = 0;
    cells
        .iter()
        .take_while(|cell| {
            width += cell.text.len();
            width <= WIDEST
        })
        .count()
}
