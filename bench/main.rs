//! Times of the library's four entries beside those of a straightforward
//! optimised Rust version of the same work, and of the library's entries on
//! records beside those on slices, on the same inputs. The first ratio is the
//! library's time over the Rust version's, the second the time on records over
//! that on slices, which is what the copy costs.
//!
//!   cargo run --release --bin bench        (in tests/second)
//!   cargo run --release --bin bench -- --sheets DIR
//!   cargo run --release --bin bench -- --once NAME
//!
//! The second form times nothing: it writes the sheets of the inputs into a
//! folder, for bench/emulated.c. The third calls each entry once on one input
//! (flat, generated, ring or figure), so that its instructions can be counted,
//! which no other work on the machine disturbs:
//!
//!   valgrind --tool=callgrind --callgrind-out-file=OUT target/release/bench --once ring
//!   callgrind_annotate --inclusive=yes --threshold=100 OUT | grep -E 'bushkalote_|Straight'
//!
//! Needs BUSHKALOTE_PANEL, the folder of libpanel.a, at build time; without it
//! only the Rust version is timed. Each time is the best of several batches,
//! in nanoseconds of the process's processor time a call; no buffer is cleared
//! between the calls. The answers of both versions are checked against the
//! second program in the same run.

mod straight;

use second::compare;
use second::dice::Dice;
use second::panel::Panel;
use second::table::Row;
use second::{gen, samples, sheet, Table};
use second::{LABELS, LISTING_BYTES, PROCEDURES, ROWS, WRITTEN_BYTES};
use std::hint::black_box;
use std::path::Path;
use std::process::ExitCode;
use straight::Straight;

/// The library, if it is linked; behind a server its times would say nothing.
#[cfg(panel)]
fn library() -> Option<Box<dyn Panel>> {
    second::panel::library()
}

#[cfg(not(panel))]
fn library() -> Option<Box<dyn Panel>> {
    None
}

#[repr(C)]
struct Timespec {
    seconds: i64,
    nanoseconds: i64,
}

extern "C" {
    fn clock_gettime(clock: i32, at: *mut Timespec) -> i32;
}

/// The process's processor time so far, in nanoseconds.
fn processor_time() -> i64 {
    const CLOCK_PROCESS_CPUTIME_ID: i32 = 2;
    let mut at = Timespec {
        seconds: 0,
        nanoseconds: 0,
    };
    let status = unsafe { clock_gettime(CLOCK_PROCESS_CPUTIME_ID, &mut at) };
    assert_eq!(status, 0, "no clock of the processor's time");
    at.seconds * 1_000_000_000 + at.nanoseconds
}

/// A version by its entries on slices, or by those on records.
enum Version<'a> {
    Slices(&'a dyn Panel),
    Records(&'a dyn Panel),
}

fn versions(library: Option<&dyn Panel>) -> Vec<Version<'_>> {
    let mut all = vec![Version::Slices(&Straight)];
    if let Some(library) = library {
        all.extend([Version::Slices(library), Version::Records(library)]);
    }
    all
}

/// What a version is called with, and where it writes.
struct Bench<'a> {
    table: &'a Table,
    records: &'a [Row],
    sheet: &'a [u8],
    matrix: Vec<u64>,
    listed: Vec<u8>,
    written: Vec<u8>,
    kinds: Vec<u8>,
    xs: Vec<u16>,
    ys: Vec<u16>,
    rows: Vec<Row>,
    roots: Vec<u16>,
}

const ENTRIES: [&str; 4] = ["analyse", "read_sheet", "list_pairs", "write_sheet"];

impl<'a> Bench<'a> {
    fn of(table: &'a Table, records: &'a [Row], sheet: &'a [u8]) -> Self {
        let blank = Row {
            kind: 0,
            x: 0,
            y: 0,
        };
        Bench {
            table,
            records,
            sheet,
            matrix: vec![0; LABELS],
            listed: vec![0; LISTING_BYTES],
            written: vec![0; WRITTEN_BYTES],
            kinds: vec![0; ROWS],
            xs: vec![0; ROWS],
            ys: vec![0; ROWS],
            rows: vec![blank; ROWS],
            roots: vec![0; PROCEDURES],
        }
    }

    fn call(&mut self, version: &Version, entry: &str) {
        let reply = match version {
            Version::Slices(panel) => self.call_on_slices(*panel, entry),
            Version::Records(panel) => self.call_on_records(*panel, entry),
        };
        assert_eq!(black_box(reply) >> 32, 0, "{entry} refused");
    }

    fn call_on_slices(&mut self, panel: &dyn Panel, entry: &str) -> u64 {
        let t = black_box(self.table);
        match entry {
            "analyse" => panel.analyse(&t.kinds, &t.xs, &t.ys, &t.roots, &mut self.matrix),
            "read_sheet" => panel.read_sheet(
                black_box(self.sheet),
                &mut self.kinds,
                &mut self.xs,
                &mut self.ys,
                &mut self.roots,
            ),
            "write_sheet" => panel.write_sheet(&t.kinds, &t.xs, &t.ys, &t.roots, &mut self.written),
            _ => panel.list_pairs(
                &t.kinds,
                &t.xs,
                &t.ys,
                &t.roots,
                &mut self.matrix,
                &mut self.listed,
            ),
        }
    }

    fn call_on_records(&mut self, panel: &dyn Panel, entry: &str) -> u64 {
        let rows = black_box(self.records);
        let roots = &self.table.roots;
        match entry {
            "analyse" => panel.analyse_rows(rows, roots, &mut self.matrix),
            "read_sheet" => panel.read_rows(black_box(self.sheet), &mut self.rows, &mut self.roots),
            "write_sheet" => panel.write_rows(rows, roots, &mut self.written),
            _ => panel.list_rows(rows, roots, &mut self.matrix, &mut self.listed),
        }
    }

    /// The best time of a call of each version, in nanoseconds. Batches of the
    /// versions take turns, so that a disturbance of the machine meets all.
    fn best(&mut self, versions: &[Version], entry: &str) -> Vec<f64> {
        let mut calls = Vec::new();
        for version in versions {
            self.call(version, entry);
            let start = processor_time();
            self.call(version, entry);
            let once = (processor_time() - start).max(1);
            calls.push((6_000_000 / once).clamp(1, 20_000) as u32);
        }
        let mut least = vec![f64::MAX; versions.len()];
        for _ in 0..20 {
            for (v, version) in versions.iter().enumerate() {
                let start = processor_time();
                for _ in 0..calls[v] {
                    self.call(version, entry);
                }
                let took = (processor_time() - start) as f64;
                least[v] = least[v].min(took / f64::from(calls[v]));
            }
        }
        least
    }
}

/// Both versions must give what the second program gives.
fn checked(name: &str, panel: &dyn Panel, table: &Table, bytes: &[u8]) -> Result<(), String> {
    let answer = compare::answer(table);
    let answer = answer.as_ref();
    let dice = &mut Dice::new(1);
    compare::reading(panel, dice, bytes, [ROWS, ROWS, ROWS, PROCEDURES])
        .and_then(|()| compare::analysing(panel, dice, table, answer, LABELS))
        .and_then(|()| compare::listing(panel, dice, table, answer, LABELS, LISTING_BYTES))
        .and_then(|()| compare::writing(panel, dice, table, WRITTEN_BYTES))
        .map_err(|what| format!("{name}: {what}"))
}

/// The first generated recipe of exactly these sizes.
fn generated(rows: usize, procedures: usize) -> Table {
    gen::of_size(&mut Dice::new(7), rows, procedures)
}

/// What is timed: a recipe, its name, and that of its sheet's file.
struct Input {
    file: &'static str,
    name: &'static str,
    table: Table,
}

fn inputs() -> [Input; 4] {
    [
        Input {
            file: "flat.sheet",
            name: "1,024 rows, 64 procedures, 2 rounds",
            table: samples::large_flat(),
        },
        Input {
            file: "generated.sheet",
            name: "1,024 rows, 64 procedures, generated",
            table: generated(ROWS, PROCEDURES),
        },
        Input {
            file: "ring.sheet",
            name: "1,024 rows, 64 procedures, 192 rounds",
            table: samples::large_ring(),
        },
        Input {
            file: "figure.sheet",
            name: "figure 1, third program, n = 62",
            table: samples::figure_third(62),
        },
    ]
}

/// Writes the sheet of each input into a folder.
fn write_sheets(folder: &str) -> ExitCode {
    for input in inputs() {
        let path = Path::new(folder).join(input.file);
        if let Err(why) = std::fs::write(&path, sheet::spell(&input.table)) {
            eprintln!("bench: {}: {why}", path.display());
            return ExitCode::from(2);
        }
        println!("{}: {}", input.file, input.name);
    }
    ExitCode::SUCCESS
}

/// Calls each entry of each version once on an input.
fn once(name: &str) -> ExitCode {
    let file = format!("{name}.sheet");
    let Some(Input { table, .. }) = inputs().into_iter().find(|input| input.file == file) else {
        eprintln!("bench: no input {name}");
        return ExitCode::from(2);
    };
    let (records, bytes) = (
        table.records().expect("an even table"),
        sheet::spell(&table),
    );
    let mut bench = Bench::of(&table, &records, &bytes);
    for version in versions(library().as_deref()) {
        for entry in ENTRIES {
            bench.call(&version, entry);
        }
    }
    ExitCode::SUCCESS
}

fn main() -> ExitCode {
    let arguments: Vec<String> = std::env::args().skip(1).collect();
    match arguments.as_slice() {
        [] => time(),
        [option, folder] if option == "--sheets" => write_sheets(folder),
        [option, name] if option == "--once" => once(name),
        _ => {
            eprintln!("usage: bench [--sheets DIR | --once NAME]");
            ExitCode::from(2)
        }
    }
}

fn time() -> ExitCode {
    let library = library();
    if library.is_none() {
        println!("library not run: BUSHKALOTE_PANEL (the folder of libpanel.a) was not set at build time");
    }
    println!(
        "{:<40} {:<11} {:>12} {:>12} {:>8} {:>12} {:>8}",
        "input", "entry", "library ns", "Rust ns", "ratio", "records ns", "ratio"
    );
    for Input { name, table, .. } in &inputs() {
        let bytes = sheet::spell(table);
        let versions = versions(library.as_deref());
        for (version, which) in versions.iter().zip(["the Rust version", "the library"]) {
            let (Version::Slices(panel) | Version::Records(panel)) = version;
            if let Err(what) = checked(which, *panel, table, &bytes) {
                eprintln!("bench: {name}: {what}");
                return ExitCode::from(1);
            }
        }
        let records = table.records().expect("an even table");
        let mut bench = Bench::of(table, &records, &bytes);
        for entry in ENTRIES {
            match bench.best(&versions, entry)[..] {
                [rust, slices, records] => println!(
                    "{name:<40} {entry:<11} {slices:>12.0} {rust:>12.0} {:>8.2} {records:>12.0} {:>8.3}",
                    slices / rust,
                    records / slices
                ),
                [rust, ..] => println!(
                    "{name:<40} {entry:<11} {:>12} {rust:>12.0} {:>8} {:>12} {:>8}",
                    "-", "-", "-", "-"
                ),
                [] => unreachable!("the Rust version is always timed"),
            }
        }
    }
    ExitCode::SUCCESS
}
