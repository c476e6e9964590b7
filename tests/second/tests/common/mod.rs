//! What several test files share.
#![allow(dead_code)]

#[path = "../../../../bench/straight.rs"]
pub mod straight;

use second::dice::Dice;
use second::fenced::Fenced;
use second::panel::Panel;
use second::table::{judge, refusal, Table};
use second::{compare, printed, sheet, work_out, Answer};
use second::{LABELS, LISTING_BYTES, PROCEDURES, ROWS};
use std::io::Write;
use std::path::PathBuf;

/// A line for the person who runs the tests, shown also when they pass.
pub fn note(text: &str) {
    let _ = writeln!(std::io::stderr(), "{text}");
}

/// The versions with the panel's entries that are at hand: the Rust version of
/// the benchmark always, the library when it is linked.
pub fn versions() -> Vec<(&'static str, Box<dyn Panel>)> {
    let mut all: Vec<(&'static str, Box<dyn Panel>)> =
        vec![("Rust version", Box::new(straight::Straight))];
    all.extend(library());
    all
}

/// The library, with fences around everything that is lent.
pub fn library() -> Option<(&'static str, Box<dyn Panel>)> {
    let library = Fenced(second::panel::library()?);
    Some(("library", Box::new(library)))
}

thread_local! {
    /// Those of this test, which runs in a thread of its own.
    static VERSIONS: Vec<(&'static str, Box<dyn Panel>)> = versions();
}

/// Makes a check on every version at hand.
pub fn on_all(name: &str, check: impl Fn(&dyn Panel, &mut Dice) -> Result<(), String>) {
    VERSIONS.with(|all| {
        for (version, panel) in all {
            check(panel.as_ref(), &mut Dice::new(8))
                .unwrap_or_else(|what| panic!("{name}, {version}: {what}"));
        }
    });
}

/// Holds all to the pairs, rounds and verdict of an admitted table: the second program, and the entries on slices and on
/// records, with words and bytes to spare, just enough of them, one byte too few and one word too few.
pub fn holds(
    name: &str,
    table: &Table,
    pairs: &[(usize, usize)],
    rounds: usize,
    verdict: &str,
) -> Answer {
    let mut due = Answer {
        matrix: [0; LABELS],
        rounds,
        wide: verdict == "wide",
        listing: format!("pairs\t{}\trounds\t{rounds}\t{verdict}\n", pairs.len()).into_bytes(),
    };
    for &(i, j) in pairs {
        due.listing.extend(format!("{i}\t{j}\n").bytes());
        due.matrix[i] |= 1 << j;
        due.matrix[j] |= 1 << i;
    }
    assert_eq!(judge(table, LABELS), Ok(()), "{name}");
    let got = work_out(table);
    let texts = [&got.listing, &due.listing].map(|text| String::from_utf8_lossy(text));
    assert_eq!(texts[0], texts[1], "{name}");
    assert_eq!(
        (got.matrix, got.rounds, got.wide),
        (due.matrix, due.rounds, due.wide),
        "{name}"
    );
    let length = due.listing.len();
    on_all(name, |panel, dice| {
        compare::analysing(panel, dice, table, Some(&due), LABELS + 2)?;
        for (words, room) in [
            (LABELS + 2, LISTING_BYTES),
            (LABELS, length),
            (LABELS, length - 1),
            (LABELS - 1, length),
        ] {
            compare::listing(panel, dice, table, Some(&due), words, room)?;
        }
        Ok(())
    });
    due
}

/// Holds all to the refusal of a table.
pub fn refused(name: &str, table: &Table, number: u32, place: usize) {
    let due = Err(refusal(number, place));
    assert_eq!(judge(table, LABELS), due, "{name}");
    on_all(name, |panel, dice| {
        compare::analysing(panel, dice, table, None, LABELS)?;
        compare::listing(panel, dice, table, None, LABELS, LISTING_BYTES)
    });
}

/// Holds all to what reading a sheet gives, a table or a number and a place, where so many kinds, xs, ys and roots are lent.
pub fn reads(name: &str, bytes: &[u8], room: [usize; 4], due: Result<Table, (u32, usize)>) {
    let due = due.map_err(|(number, place)| refusal(number, place));
    let rows = room[..3].iter().fold(ROWS, |least, &n| least.min(n));
    let got = sheet::read(bytes, rows, room[3].min(PROCEDURES));
    assert_eq!(got, due, "{name}");
    on_all(name, |panel, dice| {
        compare::reading(panel, dice, bytes, room)
    });
}

/// Holds all to what writing a table gives, a sheet or a number and a place: into no bytes, into as many as the sheet needs and a
/// few less or more, and into more than any needs; and to the reading of what was written.
pub fn writes(name: &str, table: &Table, due: Result<&str, (u32, usize)>) {
    let due = due
        .map(|sheet| sheet.as_bytes().to_vec())
        .map_err(|(number, place)| refusal(number, place));
    assert!(sheet::write(table, usize::MAX) == due, "{name}");
    for room in compare::rooms(table) {
        let fits = due.as_ref().map_or(true, |sheet| sheet.len() <= room);
        let got = sheet::write(table, room).map_err(|refusal| refusal.number);
        assert_eq!(got == Err(14), !fits, "{name}, {room} bytes");
        on_all(name, |panel, dice| {
            compare::writing(panel, dice, table, room)
        });
    }
}

/// Holds the second program and, where it is named, the report program to what is printed for a sheet.
pub fn prints(name: &str, bytes: &[u8], line: &str) {
    let same =
        |by: &str, text: Vec<u8>| assert_eq!(String::from_utf8_lossy(&text), line, "{name}, {by}");
    same("the second program", printed(bytes));
    if let Some(program) = named_report() {
        same("the report program", run(&program, bytes));
    }
}

/// Says in a test that it could not run on the library.
pub fn note_if_no_library(test: &str) {
    if library().is_none() {
        note(&format!(
            "not run: {test} on the static library (neither BUSHKALOTE_PANEL nor BUSHKALOTE_SERVER is set)"
        ));
    }
}

/// The built report program, if BUSHKALOTE_REPORT names it.
fn named_report() -> Option<PathBuf> {
    let path = std::env::var_os("BUSHKALOTE_REPORT").map(PathBuf::from)?;
    if path.as_os_str().is_empty() {
        return None;
    }
    assert!(
        path.is_file(),
        "BUSHKALOTE_REPORT: {} is not a file",
        path.display()
    );
    Some(path)
}

/// The same; says in a test that it could not run on it.
pub fn report_program(test: &str) -> Option<PathBuf> {
    let program = named_report();
    if program.is_none() {
        note(&format!(
            "not run: {test} on the report program (BUSHKALOTE_REPORT, its path, is not set)"
        ));
    }
    program
}

/// What a program prints for a sheet on its standard input; it ends with status 0 and has nothing else to say.
pub fn run(program: &std::path::Path, sheet: &[u8]) -> Vec<u8> {
    use std::process::Stdio;
    let mut child = second::remote::x86(program)
        .stdin(Stdio::piped())
        .stdout(Stdio::piped())
        .stderr(Stdio::piped())
        .spawn()
        .unwrap_or_else(|e| panic!("cannot start {}: {e}", program.display()));
    let mut input = child.stdin.take().unwrap();
    // A program that has seen enough may close its input early.
    if let Err(e) = input.write_all(sheet) {
        assert_eq!(
            e.kind(),
            std::io::ErrorKind::BrokenPipe,
            "cannot write to the program"
        );
    }
    drop(input);
    let output = child.wait_with_output().expect("the program's output");
    let told = String::from_utf8_lossy(&output.stderr);
    assert!(
        output.status.code() == Some(0) && told.is_empty(),
        "the program ends with {} and tells '{told}' for {}",
        output.status,
        shown(sheet)
    );
    output.stdout
}

/// The bytes of a sheet for a message.
pub fn shown(bytes: &[u8]) -> String {
    let all: String = String::from_utf8_lossy(bytes).chars().take(3000).collect();
    format!("{} bytes:\n{all}", bytes.len())
}
