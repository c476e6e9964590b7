//! An independent reckoning of the pairs of a recipe, for comparison.
//!
//! A sheet is read by splitting it into lines and fields, the table is judged,
//! and the least solution of the rules is found by a worklist over constraints
//! on sets. The number of rounds is counted beside it, naively: every body is
//! worked out again in each round, and whole sets are compared. Where the
//! worklist and the last round differ, the program stops with a message. A
//! table is written as a sheet line by line.

pub mod calls;
pub mod compare;
pub mod dice;
pub mod fenced;
pub mod gen;
pub mod listing;
pub mod panel;
pub mod remote;
pub mod rounds;
pub mod samples;
pub mod sets;
pub mod sheet;
pub mod solve;
pub mod table;

pub use table::{Refusal, Table};

/// At most so many rows.
pub const ROWS: usize = 1024;
/// At most so many procedures.
pub const PROCEDURES: usize = 64;
/// Labels are below this.
pub const LABELS: usize = 64;
/// A sheet has at most so many bytes.
pub const SHEET_BYTES: usize = 65_536;
/// A listing has at most so many bytes.
pub const LISTING_BYTES: usize = 11_858;
/// A sheet that is written has at most so many bytes.
pub const WRITTEN_BYTES: usize = 19_904;
/// A field of a sheet holds numbers up to this one.
pub const LONGEST_NUMBER: u16 = 9_999;

/// What the analysis of an admitted table gives.
pub struct Answer {
    pub matrix: [u64; LABELS],
    pub rounds: usize,
    pub wide: bool,
    pub listing: Vec<u8>,
}

/// Works out an admitted table: the pairs by the worklist, the rounds by the
/// naive rounds, both held against each other for every procedure.
pub fn work_out(table: &Table) -> Answer {
    let solved = solve::solve(table);
    let (rounds, held) = rounds::count(table);
    for (p, summary) in held.iter().enumerate() {
        assert!(
            solved[p] == *summary,
            "the worklist and the rounds differ in procedure {p}"
        );
    }
    assert!(
        rounds <= 3 * table.roots.len(),
        "{rounds} rounds for {} procedures",
        table.roots.len()
    );
    let wide = calls::main_reaches_a_self_caller(table);
    let pairs = &solved[0].m;
    Answer {
        matrix: pairs.words(),
        rounds,
        wide,
        listing: listing::text(pairs, rounds, wide),
    }
}

/// What the report program prints for a sheet.
pub fn printed(bytes: &[u8]) -> Vec<u8> {
    let read = sheet::read(bytes, ROWS, PROCEDURES);
    let admitted = read.and_then(|table| table::judge(&table, LABELS).map(|()| table));
    match admitted {
        Ok(table) => work_out(&table).listing,
        Err(refusal) => listing::refused(refusal),
    }
}
