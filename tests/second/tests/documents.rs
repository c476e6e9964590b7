//! The cases that the documents give, and tables that reach the limits, on the
//! second program, on the Rust version of the benchmark, on the library where
//! it is linked, and on the report program where it is named.

mod common;

use common::{note_if_no_library, on_all, prints, reads, report_program, writes};
use second::samples::*;
use second::table::Table;
use second::{compare, sheet, work_out, LABELS, LISTING_BYTES, PROCEDURES, ROWS};
use std::panic::Location;

/// An admitted table, its sheet, read and written, and what is printed for it.
#[track_caller]
fn holds(table: &Table, pairs: &[(usize, usize)], rounds: usize, verdict: &str) {
    let name = Location::caller().to_string();
    let due = common::holds(&name, table, pairs, rounds, verdict);
    let bytes = sheet::spell(table);
    reads(
        &name,
        &bytes,
        [ROWS, ROWS, ROWS, PROCEDURES],
        Ok(table.clone()),
    );
    writes(&name, table, Ok(std::str::from_utf8(&bytes).unwrap()));
    prints(&name, &bytes, &String::from_utf8_lossy(&due.listing));
}

/// A refused table, and what is printed for its sheet.
#[track_caller]
fn refused(table: &Table, number: u32, place: usize, line: &str) {
    let name = Location::caller().to_string();
    common::refused(&name, table, number, place);
    prints(&name, &sheet::spell(table), line);
}

#[test]
fn which_versions_are_at_hand() {
    note_if_no_library("the documents' cases");
    report_program("the documents' cases");
}

#[test]
fn the_whole_case() {
    let text = "R\tstep\t0\t0\nR\tasync\t0\t0\nR\tstep\t1\t0\nR\tasync\t2\t0\nR\tstep\t2\t0\nR\tseq\t3\t4\n\
                R\tfinish\t5\t0\nR\tstep\t3\t0\nR\tseq\t6\t7\nR\tseq\t1\t8\nP\t9\n";
    assert_eq!(
        String::from_utf8(sheet::spell(&whole_case())).unwrap(),
        text
    );
    holds(&whole_case(), &[(0, 1), (0, 2), (0, 3), (1, 2)], 1, "exact");
}

#[test]
fn the_small_recipes() {
    holds(&small(1), &[], 0, "exact");
    holds(&small(2), &[], 1, "exact");
    holds(&small(3), &[(5, 6)], 1, "exact");
    holds(&small(4), &[], 1, "exact");
    holds(&small(5), &[(0, 0)], 1, "exact");
    holds(&small(6), &[], 1, "exact");
    holds(&small(7), &[(0, 2), (1, 2)], 1, "exact");
    holds(&small(8), &[(0, 1)], 2, "exact");
    holds(&small(9), &[], 2, "exact");
    holds(&small(10), &[(0, 0)], 3, "wide");
    holds(&small(11), &[(0, 0)], 1, "wide");
    holds(&small(12), &[], 0, "exact");
}

#[test]
fn self_calls_of_sub_recipes() {
    holds(&self_call_two_below(), &[(0, 1), (0, 2)], 3, "wide");
    holds(&unused_caller_of_self_call(), &[(0, 1)], 2, "exact");
}

#[test]
fn the_limits_of_recipe_thirteen() {
    holds(&recipe(&[step(63)]), &[], 1, "exact");
    refused(&recipe(&[step(64)]), 4, 0, "refused\t4\t0\n");
    holds(&nested(1024, |_, s| waited(s)), &[], 1, "exact");
    // As a table 1,025 rows are refused with 1; as a sheet the reader stops at line 1,024.
    refused(&nested(1025, |_, s| waited(s)), 1, 0, "refused\t13\t1024\n");
    let mut twice = Table::default();
    twice.push(0, 0, 0);
    twice.push(2, 0, 0);
    twice.roots = vec![1];
    refused(&twice, 6, 0, "refused\t6\t0\n");
    let mut unused = Table::default();
    unused.push(0, 0, 0);
    unused.push(0, 0, 0);
    unused.roots = vec![1];
    refused(&unused, 7, 0, "refused\t7\t0\n");
}

#[test]
fn figure_1_first_program() {
    holds(&figure_first(), &[(1, 1), (2, 3)], 2, "exact");
}

#[test]
fn figure_1_second_program() {
    holds(&figure_second(), &[(1, 1)], 1, "wide");
}

#[test]
fn figure_1_third_program() {
    for n in [0, 1, 2, 3, 5, 9, 10, 31, 61, 62] {
        let mut every = Vec::new();
        for i in 0..=n {
            for j in i..=n {
                every.push((i, j));
            }
        }
        holds(&figure_third(n), &every, n + 2, "wide");
    }
}

#[test]
fn the_ring_that_takes_three_rounds_a_procedure() {
    assert_eq!(ring(1), small(10));
    for n in (1..=8).chain([63, 64]) {
        let table = ring(n);
        assert_eq!(table.roots.len(), n);
        assert_eq!(table.rows(), n + 5);
        holds(&table, &[(0, 0)], 3 * n, "wide");
    }
}

#[test]
fn the_largest_tables() {
    let large = large_ring();
    assert_eq!((large.rows(), large.roots.len()), (ROWS, PROCEDURES));
    assert_eq!(work_out(&large).rounds, 3 * PROCEDURES);
    let flat = large_flat();
    assert_eq!((flat.rows(), flat.roots.len()), (ROWS, PROCEDURES));
    assert_eq!(work_out(&flat).rounds, 2);
    for (name, table) in [("large ring", large), ("flat", flat)] {
        on_all(name, |panel, dice| {
            compare::sheet(panel, dice, &sheet::spell(&table))?;
            compare::table(panel, dice, &table)
        });
    }
    // Procedure f is 12 loops round async{f} and a call of the next one: every label meets every label.
    let bodies: Vec<Statement> = (0..PROCEDURES)
        .map(|f| {
            let next = if f + 1 < PROCEDURES {
                call(f + 1)
            } else {
                skip()
            };
            (0..12).fold(seq(spawned(step(f)), next), |body, _| looped(body))
        })
        .collect();
    let full = recipe(&bodies);
    assert_eq!((full.rows(), full.roots.len()), (ROWS, PROCEDURES));
    holds(&full, &every_pair(), PROCEDURES, "exact");
}

#[test]
fn chains_as_deep_as_can_be() {
    holds(&nested(ROWS, |_, s| looped(s)), &[], 1, "exact");
    holds(&nested(ROWS, |_, s| spawned(s)), &[], 1, "exact");
    holds(
        &nested(ROWS, |i, s| if i == 1 { spawned(s) } else { looped(s) }),
        &[(0, 0)],
        1,
        "exact",
    );
    holds(
        &nested(ROWS, |i, s| if i % 2 == 1 { spawned(s) } else { looped(s) }),
        &[(0, 0)],
        1,
        "exact",
    );
    // Sequences to the left and to the right, 511 deep, and one row more.
    let left = nested(512, |i, s| {
        if i == 1 {
            spawned(seq(s, step(1)))
        } else {
            seq(s, step(1))
        }
    });
    assert_eq!(left.rows(), 1024);
    holds(&left, &[(0, 1), (1, 1)], 1, "exact");
    let right = nested(512, |i, s| {
        if i == 1 {
            spawned(seq(step(1), s))
        } else {
            seq(step(1), s)
        }
    });
    assert_eq!(right.rows(), 1024);
    holds(&right, &[], 1, "exact");
    // A side branch that a wait ends at every level.
    let waits = nested(256, |_, s| waited(spawned(seq(step(1), s))));
    assert_eq!(waits.rows(), 1021);
    holds(&waits, &[], 1, "exact");
}

#[test]
fn sixty_four_procedures() {
    // A line of calls: the branch of the last comes to main after 64 rounds.
    let mut line: Vec<Statement> = (1..PROCEDURES).map(call).collect();
    line.push(spawned(step(9)));
    let first = line[0].clone();
    line[0] = seq(first, step(8));
    holds(&recipe(&line), &[(8, 9)], PROCEDURES, "exact");
    // One more is refused: 68 row lines, 64 procedure lines, then this one.
    line.push(skip());
    refused(&recipe(&line), 1, 0, "refused\t13\t132\n");
}

/// All pairs that there can be, in order.
fn every_pair() -> Vec<(usize, usize)> {
    (0..LABELS)
        .flat_map(|i| (i..LABELS).map(move |j| (i, j)))
        .collect()
}

#[test]
fn all_the_pairs() {
    let every = every_pair();
    assert_eq!(every.len(), 2080);
    holds(&recipe(&[all_together(LABELS)]), &every, 1, "exact");
    assert_eq!(
        work_out(&recipe(&[all_together(LABELS)])).listing.len(),
        11_856
    );
    // Every pair after 64 rounds by the line of calls.
    let mut line: Vec<Statement> = (1..PROCEDURES).map(call).collect();
    line.push(all_together(LABELS));
    let table = recipe(&line);
    holds(&table, &every, PROCEDURES, "exact");
    assert_eq!(work_out(&table).listing.len(), LISTING_BYTES - 1);
    // The longest listing: with one byte less it is refused with 14, and what is lent stays as it was.
    let longest = longest_listing();
    assert_eq!(work_out(&longest).listing.len(), LISTING_BYTES);
    holds(&longest, &every, 3 * (PROCEDURES - 1), "exact");
}

#[test]
fn pairs_of_a_procedure_that_main_never_reaches_stay_out() {
    let apart = recipe(&[
        seq(spawned(step(0)), step(1)),
        seq(spawned(step(2)), step(3)),
    ]);
    holds(&apart, &[(0, 1)], 1, "exact");
}

#[test]
fn the_verdict_speaks_of_main_and_whom_it_reaches() {
    // Main calls itself, or comes back to itself by another, which is called or left running.
    holds(&recipe(&[call(0)]), &[], 0, "wide");
    holds(&recipe(&[call(1), call(0)]), &[], 0, "wide");
    holds(&recipe(&[call(1), spawned(call(0))]), &[], 0, "wide");
    // A self-call one and two calls below main, and a ring below it.
    holds(&recipe(&[call(1), call(1)]), &[], 0, "wide");
    holds(&recipe(&[call(1), call(2), call(2)]), &[], 0, "wide");
    holds(&recipe(&[call(1), call(2), call(1)]), &[], 0, "wide");
    // The same through a procedure with a lower number, and by the last procedure of all.
    holds(&recipe(&[call(2), call(1), call(1)]), &[], 0, "wide");
    let mut line: Vec<Statement> = (1..PROCEDURES).map(call).collect();
    line.push(call(PROCEDURES - 1));
    holds(&recipe(&line), &[], 0, "wide");
    // A self-caller, and a caller of one, to which only the last procedure leads.
    holds(
        &recipe(&[call(3), call(2), call(2), call(1)]),
        &[],
        0,
        "wide",
    );
    let mut through_last = vec![call(PROCEDURES - 1), call(2), call(2)];
    through_last.resize_with(PROCEDURES - 1, skip);
    through_last.push(call(1));
    holds(&recipe(&through_last), &[], 0, "wide");
    // A call counts wherever it stands.
    let places: [fn(Statement) -> Statement; 5] = [
        looped,
        spawned,
        waited,
        |s| seq(s, skip()),
        |s| seq(skip(), s),
    ];
    for place in places {
        let table = recipe(&[place(call(1)), place(call(1))]);
        holds(&table, &[], 0, "wide");
    }

    // Rings and self-calls that main never reaches, by whomever they are called.
    holds(&recipe(&[skip(), call(2), call(1)]), &[], 0, "exact");
    holds(&recipe(&[skip(), call(2), call(2)]), &[], 0, "exact");
    holds(
        &recipe(&[call(3), call(1), call(1), step(7)]),
        &[],
        2,
        "exact",
    );
    // Main comes to the even procedures alone, the odd ones to the last, which calls itself.
    let mut line: Vec<Statement> = (1..PROCEDURES).map(|p| call(p + 1)).collect();
    line[PROCEDURES - 2] = skip();
    line.push(call(PROCEDURES - 1));
    holds(&recipe(&line), &[], 0, "exact");
    // Procedures that main never reaches and that call main, or one that main reaches.
    holds(&recipe(&[skip(), call(0)]), &[], 0, "exact");
    holds(&recipe(&[call(1), skip(), call(1)]), &[], 0, "exact");
    holds(
        &recipe(&[call(1), skip(), seq(call(0), call(2))]),
        &[],
        0,
        "exact",
    );
    // Called twice without a ring.
    let twice = recipe(&[seq(call(1), call(2)), call(2), step(7)]);
    holds(&twice, &[], 2, "exact");

    // Whoever else calls a self-caller that main reaches.
    holds(&recipe(&[call(1), call(1), call(1)]), &[], 0, "wide");
    holds(
        &recipe(&[call(2), call(2), call(2), call(3)]),
        &[],
        0,
        "wide",
    );
}

/// The verdict on each way in which three procedures can call each other, held to the walks of up to three calls.
#[test]
fn every_call_graph_of_three_procedures() {
    let mut exact = 0;
    for graph in 0..1 << 9 {
        let calls = |p: usize, q: usize| graph >> (3 * p + q) & 1 == 1;
        let in_one = |p, q| calls(p, q);
        let in_two = |p, q| (0..3).any(|via| calls(p, via) && in_one(via, q));
        let in_three = |p, q| (0..3).any(|via| calls(p, via) && in_two(via, q));
        let reaches = |p, q| in_one(p, q) || in_two(p, q) || in_three(p, q);
        let due = (0..3).any(|p| (p == 0 || reaches(0, p)) && reaches(p, p));
        let body = |p| {
            let called = (0..3).filter(|&q| calls(p, q)).map(call);
            called.reduce(seq).unwrap_or(skip())
        };
        let verdict = if due { "wide" } else { "exact" };
        let name = format!("call graph {graph:09b}");
        common::holds(&name, &recipe(&[0, 1, 2].map(body)), &[], 0, verdict);
        exact += usize::from(!due);
    }
    // Main calls nobody, reaches one other that calls nobody, or reaches both without a ring.
    assert_eq!(exact, 64 + 16 + 5);
}
