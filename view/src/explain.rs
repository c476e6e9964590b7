//! A refusal in words: what is wrong, where, and what is allowed there.
//!
//! That a sheet is refused, with which number and at which place, is the proved program's word. Here only the field is
//! looked for that shows it. Where none is found, the sheet is not the one that was refused, and the words stand alone.
mod form;
pub mod sheet;
mod shown;

use std::ops::Range;
use std::slice::from_ref;

use sheet::{kinds, Row, Sheet, CEILING, LABELS, PROCEDURES, ROWS};
use shown::{marked, Tabs};

const CHANGED: &str = "The sheet does not show why any more; has it changed since it was read?";
const LENT_MATRIX: &str =
    "The program lends a matrix that is large enough, so that no sheet is refused with this.";
const LENT_BYTES: &str =
    "The program lends bytes for the longest listing and writes no sheet, so that no sheet is refused with this.";
const LONG_NUMBER: &str =
    "Numbers on a sheet go up to 9,999. Only rows and roots that are to be written can have others, so that no sheet is refused with this.";
const ROWS_ALLOWED: &str = "A recipe has 1 to 1,024 rows, the lines that begin with R.";
const PROCEDURES_ALLOWED: &str =
    "A recipe has 1 to 64 procedures, the lines behind the rows that begin with P; the first is main.";

/// The text for people, of a refusal with this number and place. The bytes are the sheet's, or so many of its size that
/// it is known to be too long.
pub fn explain(name: &str, bytes: &[u8], size: u64, number: usize, place: usize) -> String {
    let sheet = Sheet::read(bytes);
    let found = match number {
        // These are given only where the whole sheet could be read.
        1 | 4..=7 if !sheet.is_whole() => None,
        1 => sizes(&sheet),
        2 => Some(indented(LENT_MATRIX)),
        3 => Some(indented(&kinds())),
        4 => operands(&sheet, place),
        5 => root(&sheet, place),
        6 => used_again(&sheet, place),
        7 => unused(&sheet, place),
        11 => too_long(size),
        12 => malformed(&sheet, place),
        13 => no_room(&sheet, place),
        14 => Some(indented(LENT_BYTES)),
        15 => Some(indented(LONG_NUMBER)),
        _ => None,
    };
    let found = found.unwrap_or_else(|| indented(CHANGED));
    let refusal = words(number, place);
    format!("{}: refused, {refusal}\n{found}", plain(name))
}

/// A refusal and its place in words.
fn words(number: usize, place: usize) -> String {
    let what = match number {
        1 => "rows or procedures missing, or too many",
        2 => "a matrix of too few words",
        3 => "an unknown kind",
        4 => "an operand that its kind does not allow",
        5 => "a root that is not a row",
        6 => "a row that is used more than once",
        7 => "a row that is not used",
        11 => "a sheet that is too long",
        12 => "a malformed line",
        13 => "a row or procedure too many",
        14 => "a listing or a sheet that does not fit",
        15 => "a number that no sheet can hold",
        _ => "for a reason that has no words here",
    };
    let at = match number {
        1 | 2 | 11 | 14 => String::new(),
        3 | 4 | 6 | 7 => format!(", row {place}"),
        5 => format!(", procedure {place}"),
        15 => format!(", row or procedure {place}"),
        12 | 13 => line_words(place),
        _ => format!(", place {place}"),
    };
    format!("{what} ({number}){at}")
}

/// The program counts lines from 0, and editors count them from 1.
fn line_words(line: usize) -> String {
    format!(
        ", line {line} counted from 0, line {} in an editor",
        line + 1
    )
}

/// A name without control characters, which could do something to a terminal.
fn plain(name: &str) -> String {
    name.chars()
        .map(|c| {
            if c.is_control() {
                c.escape_default().to_string()
            } else {
                c.to_string()
            }
        })
        .collect()
}

fn indented(text: &str) -> String {
    format!("  {text}\n")
}

/// A row with its line and its number, and marks under some of its fields.
fn shown_row(sheet: &Sheet, row: usize, marks: &[Range<usize>]) -> String {
    let head = format!("  line {}, row {row}:  ", row + 1);
    marked(&head, sheet.lines[row].bytes, marks, Tabs::Blank)
}

/// The same for a procedure; its line stands behind those of the rows.
fn shown_procedure(sheet: &Sheet, procedure: usize, marks: &[Range<usize>]) -> String {
    let line = sheet.rows.len() + procedure;
    let head = format!("  line {}, procedure {procedure}:  ", line + 1);
    marked(&head, sheet.lines[line].bytes, marks, Tabs::Blank)
}

fn sizes(sheet: &Sheet) -> Option<String> {
    let fits = |count: usize, most: usize| (1..=most).contains(&count);
    let (rows, procedures) = (sheet.rows.len(), sheet.roots.len());
    if fits(rows, ROWS) && fits(procedures, PROCEDURES) {
        return None;
    }
    let rows_counted = counted(rows, "row");
    let procedures_counted = counted(procedures, "procedure");
    let mut text = indented(&format!(
        "The sheet has {rows_counted} and {procedures_counted}."
    ));
    if !fits(rows, ROWS) {
        text.push_str(&indented(ROWS_ALLOWED));
    }
    if !fits(procedures, PROCEDURES) {
        text.push_str(&indented(PROCEDURES_ALLOWED));
    }
    Some(text)
}

fn counted(count: usize, what: &str) -> String {
    match count {
        0 => format!("no {what}"),
        1 => format!("1 {what}"),
        _ => format!("{} {what}s", grouped(count as u64)),
    }
}

/// A number with a comma before each three of its digits.
fn grouped(number: u64) -> String {
    match number {
        0..=999 => number.to_string(),
        _ => format!("{},{:03}", grouped(number / 1_000), number % 1_000),
    }
}

fn operands(sheet: &Sheet, place: usize) -> Option<String> {
    let row = sheet.rows.get(place)?;
    let mut marks = Vec::new();
    let mut rules = String::new();
    let wrong = [
        (&row.x_at, x_rule(row, place, sheet.roots.len())),
        (&row.y_at, y_rule(row, place)),
    ];
    for (at, rule) in wrong {
        if let Some(rule) = rule {
            marks.push(at.clone());
            rules.push_str(&indented(&rule));
        }
    }
    if marks.is_empty() {
        return None;
    }
    Some(shown_row(sheet, place, &marks) + &rules)
}

/// The rule that the first operand of a row breaks, if it does.
fn x_rule(row: &Row, place: usize, procedures: usize) -> Option<String> {
    let (right, rule) = match row.kind {
        "skip" => (row.x == 0, String::from("A skip has no operands: x is 0.")),
        "step" => (row.x < LABELS, String::from("A step's label is 0 to 63.")),
        "seq" => (row.x < place, child_rule("first child", row.kind, place)),
        "call" => (row.x < procedures, call_rule(procedures)),
        _ => (row.x < place, child_rule("child", row.kind, place)),
    };
    (!right).then_some(rule)
}

/// The same for the second, which only a sequence uses.
fn y_rule(row: &Row, place: usize) -> Option<String> {
    let (right, rule) = match row.kind {
        "seq" => (row.y < place, child_rule("second child", row.kind, place)),
        "skip" => (row.y == 0, String::from("A skip has no operands: y is 0.")),
        "step" => (
            row.y == 0,
            String::from("A step has one operand, its label: y is 0."),
        ),
        "call" => (
            row.y == 0,
            String::from("A call has one operand, its procedure: y is 0."),
        ),
        kind => (
            row.y == 0,
            format!("{} has one operand, its child: y is 0.", a(kind)),
        ),
    };
    (!right).then_some(rule)
}

fn child_rule(child: &str, kind: &str, place: usize) -> String {
    let due = format!(
        "The {child} of {} is a row that stands before it:",
        a(kind).to_lowercase()
    );
    match place {
        0 => format!("{due} row 0 has none before it."),
        1 => format!("{due} row 0."),
        _ => format!("{due} 0 to {}.", place - 1),
    }
}

fn call_rule(procedures: usize) -> String {
    let due = match procedures {
        0 | 1 => String::from("there is procedure 0 alone."),
        _ => format!("0 to {}.", procedures - 1),
    };
    format!("A call's procedure is one that the sheet has: {due}")
}

fn a(kind: &str) -> String {
    let article = if kind.starts_with('a') { "An" } else { "A" };
    format!("{article} {kind}")
}

fn root(sheet: &Sheet, place: usize) -> Option<String> {
    let root = sheet.roots.get(place)?;
    let rows = sheet.rows.len();
    if root.row < rows || rows == 0 {
        return None;
    }
    let due = match rows {
        1 => String::from("there is row 0 alone."),
        _ => format!("0 to {}.", rows - 1),
    };
    let rule = indented(&format!(
        "A procedure's root is a row that the sheet has: {due}"
    ));
    Some(shown_procedure(sheet, place, from_ref(&root.at)) + &rule)
}

/// Where on its line a row names another one as its child: a sequence has two children, loop, async and finish have one.
fn children(row: &Row, child: usize) -> Vec<Range<usize>> {
    let x = matches!(row.kind, "seq" | "loop" | "async" | "finish") && row.x == child;
    let y = row.kind == "seq" && row.y == child;
    [(x, &row.x_at), (y, &row.y_at)]
        .into_iter()
        .filter(|(names, _)| *names)
        .map(|(_, at)| at.clone())
        .collect()
}

/// The users of a row with their lines, marked where they name it, and how often they do.
fn users(sheet: &Sheet, used: usize) -> (String, usize) {
    let mut text = String::new();
    let mut uses = 0;
    for (at, row) in sheet.rows.iter().enumerate() {
        let marks = children(row, used);
        if !marks.is_empty() {
            uses += marks.len();
            text.push_str(&shown_row(sheet, at, &marks));
        }
    }
    for (at, root) in sheet.roots.iter().enumerate() {
        if root.row == used {
            uses += 1;
            text.push_str(&shown_procedure(sheet, at, from_ref(&root.at)));
        }
    }
    (text, uses)
}

const MEND_A_NUMBER: &str =
    "If one of them should name another row, for instance a wait around this one, mend its number.";
const GIVE_A_COPY: &str =
    "Else give it a copy of the row and of the rows that it is built of, or make the row a procedure and call it.";
const ONE_USER: &str =
    "A row is used once: as a child of one later row, or as the root of one procedure.";

fn used_again(sheet: &Sheet, place: usize) -> Option<String> {
    sheet.rows.get(place)?;
    let (users, uses) = users(sheet, place);
    if uses < 2 {
        return None;
    }
    let row = shown_row(sheet, place, &[]);
    let said = indented(&format!("is used {uses} times:"));
    let rule = indented(ONE_USER) + &indented(MEND_A_NUMBER) + &indented(GIVE_A_COPY);
    Some(row + &said + &users + &rule)
}

fn unused(sheet: &Sheet, place: usize) -> Option<String> {
    sheet.rows.get(place)?;
    if users(sheet, place).1 > 0 {
        return None;
    }
    let whole = 0..sheet.lines[place].bytes.len();
    let rule = indented(ONE_USER) + &indented("Nothing uses this one.");
    Some(shown_row(sheet, place, from_ref(&whole)) + &rule)
}

fn too_long(size: u64) -> Option<String> {
    if size <= CEILING {
        return None;
    }
    // Of a sheet that is no regular file one byte too many is kept, and its size is not known.
    let or_more = if size == CEILING + 1 { " or more" } else { "" };
    Some(indented(&format!(
        "The sheet has {} bytes{or_more}. A sheet has at most 65,536. Is it the right file?",
        grouped(size)
    )))
}

fn malformed(sheet: &Sheet, place: usize) -> Option<String> {
    let line = *sheet.lines.get(place)?;
    let head = format!("  line {}:  ", place + 1);
    let (at, rule) = match form::fault_of(line) {
        Some(fault) => (fault.at, fault.text),
        None => (0..1, late(sheet, place)?),
    };
    let key = match line.bytes.contains(&b'\t') {
        true => indented("(\\t is a tab.)"),
        false => String::new(),
    };
    Some(marked(&head, line.bytes, from_ref(&at), Tabs::Spelt) + &indented(&rule) + &key)
}

/// A row line of the right form is wrong all the same behind a procedure line.
fn late(sheet: &Sheet, place: usize) -> Option<String> {
    let first = sheet.rows.len();
    let is_row = sheet.lines[place].bytes.starts_with(b"R");
    (is_row && first < place && !sheet.roots.is_empty()).then(|| {
        format!(
            "A row stands before all procedures, and line {} is a procedure.",
            first + 1
        )
    })
}

fn no_room(sheet: &Sheet, place: usize) -> Option<String> {
    let line = sheet.lines.get(place)?;
    let rule = match line.bytes.first()? {
        b'R' if place == ROWS => {
            "1,024 rows stand before this one. A recipe has at most 1,024 rows."
        }
        b'P' if sheet.rows.len() + PROCEDURES == place => {
            "64 procedures stand before this one. A recipe has at most 64 procedures."
        }
        _ => return None,
    };
    let head = format!("  line {}:  ", place + 1);
    Some(marked(&head, line.bytes, from_ref(&(0..1)), Tabs::Blank) + &indented(rule))
}
