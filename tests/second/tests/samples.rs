//! The sample recipes beside their expected listings, and read and written again.

mod common;

use common::{note_if_no_library, on_all, report_program, run, versions, writes};
use second::dice::Dice;
use second::panel::Panel;
use second::samples::{
    longest_listing, self_call_two_below, small, unused_caller_of_self_call, whole_case,
};
use second::table::Row;
use second::{compare, printed, sheet, LISTING_BYTES, PROCEDURES, ROWS, WRITTEN_BYTES};
use std::fs;
use std::path::{Path, PathBuf};

fn folder() -> PathBuf {
    Path::new(env!("CARGO_MANIFEST_DIR")).join("../../recipes")
}

/// The sheets of the sample recipes.
fn samples() -> Vec<PathBuf> {
    let all = fs::read_dir(folder()).expect("the folder of the sample recipes");
    let paths = all.map(|entry| entry.unwrap().path());
    let sheets: Vec<PathBuf> = paths
        .filter(|path| path.extension().is_some_and(|e| e == "sheet"))
        .collect();
    assert!(sheets.len() >= 28, "only {} samples", sheets.len());
    sheets
}

#[test]
fn samples_are_the_recipes_of_the_same_name() {
    let recipes = [
        ("whole-case", whole_case()),
        ("12-unused-self-call", small(12)),
        ("self-call-two-below", self_call_two_below()),
        ("unused-caller-of-self-call", unused_caller_of_self_call()),
        ("longest-listing", longest_listing()),
    ];
    for (name, table) in recipes {
        let sheet = fs::read(folder().join(name).with_extension("sheet")).unwrap();
        assert!(sheet == sheet::spell(&table), "{name}");
    }
    let longest = fs::metadata(folder().join("longest-listing.listing")).unwrap();
    assert_eq!(longest.len(), LISTING_BYTES as u64);
}

#[test]
fn every_sample_gives_its_listing() {
    let folder = folder();
    let read_me = fs::read_to_string(folder.join("README.md")).expect("recipes/README.md");
    let report = report_program("the sample recipes");
    note_if_no_library("the sample recipes");
    for path in samples() {
        let name = path.file_stem().unwrap().to_str().unwrap();
        let sheet = fs::read(&path).unwrap();
        let listing = fs::read(path.with_extension("listing"))
            .unwrap_or_else(|e| panic!("{name}.listing: {e}"));
        assert!(
            read_me.contains(&format!("`{name}`")),
            "{name} is not described in README.md"
        );
        assert_eq!(
            String::from_utf8_lossy(&printed(&sheet)),
            String::from_utf8_lossy(&listing),
            "{name}"
        );
        if let Some(program) = &report {
            assert_eq!(
                String::from_utf8_lossy(&run(program, &sheet)),
                String::from_utf8_lossy(&listing),
                "{name} by the report program"
            );
        }
        for (version, panel) in versions() {
            compare::sheet(panel.as_ref(), &mut Dice::new(6), &sheet)
                .unwrap_or_else(|what| panic!("{name}, {version}: {what}"));
        }
    }
}

/// The bytes that a version writes, by its reply.
fn written(write: impl Fn(&mut [u8]) -> u64) -> Vec<u8> {
    let mut bytes = vec![b'#'; WRITTEN_BYTES];
    let length = write(&mut bytes) as usize;
    assert!(length <= WRITTEN_BYTES, "refused");
    assert!(bytes[length..].iter().all(|&b| b == b'#'));
    bytes.truncate(length);
    bytes
}

/// Reads a sheet into slices and writes it again, and reads that again.
fn there_and_back_on_slices(panel: &dyn Panel, bytes: &[u8]) {
    let read = |bytes: &[u8]| {
        let (mut kinds, mut xs, mut ys) = ([9; ROWS], [9; ROWS], [9; ROWS]);
        let mut roots = [9; PROCEDURES];
        let reply = panel.read_sheet(bytes, &mut kinds, &mut xs, &mut ys, &mut roots);
        assert_eq!(reply >> 32, 0);
        let (n, p) = ((reply & 0xffff) as usize, (reply >> 16) as usize);
        (
            kinds[..n].to_vec(),
            xs[..n].to_vec(),
            ys[..n].to_vec(),
            roots[..p].to_vec(),
        )
    };
    let first = read(bytes);
    let (kinds, xs, ys, roots) = &first;
    let again = written(|bytes| panel.write_sheet(kinds, xs, ys, roots, bytes));
    assert!(again == bytes, "another sheet is written than was read");
    assert!(
        read(&again) == first,
        "another table is read than was written"
    );
}

/// The same on records.
fn there_and_back_on_records(panel: &dyn Panel, bytes: &[u8]) {
    let read = |bytes: &[u8]| {
        let blank = Row {
            kind: 9,
            x: 9,
            y: 9,
        };
        let (mut rows, mut roots) = ([blank; ROWS], [9; PROCEDURES]);
        let reply = panel.read_rows(bytes, &mut rows, &mut roots);
        assert_eq!(reply >> 32, 0);
        let (n, p) = ((reply & 0xffff) as usize, (reply >> 16) as usize);
        (rows[..n].to_vec(), roots[..p].to_vec())
    };
    let first = read(bytes);
    let (rows, roots) = &first;
    let again = written(|bytes| panel.write_rows(rows, roots, bytes));
    assert!(again == bytes, "another sheet is written than was read");
    assert!(
        read(&again) == first,
        "another table is read than was written"
    );
}

#[test]
fn every_sample_is_written_as_it_was_read() {
    let mut unread = Vec::new();
    for path in samples() {
        let name = path.file_stem().unwrap().to_str().unwrap();
        let bytes = fs::read(&path).unwrap();
        let Ok(table) = sheet::read(&bytes, ROWS, PROCEDURES) else {
            unread.push(name.to_string());
            continue;
        };
        writes(name, &table, Ok(std::str::from_utf8(&bytes).unwrap()));
        on_all(name, |panel, _| {
            there_and_back_on_slices(panel, &bytes);
            there_and_back_on_records(panel, &bytes);
            Ok(())
        });
    }
    assert_eq!(unread, ["13d-rows-1025"]);
}
