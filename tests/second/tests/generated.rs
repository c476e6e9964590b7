//! Generated sheets and tables: the second program beside the report program,
//! the static library and the Rust version of the benchmark.

mod common;

use common::{note_if_no_library, report_program, run, shown, versions};
use second::calls::has_an_unreached_self_caller;
use second::dice::Dice;
use second::table::{judge, writable};
use second::{compare, gen, printed, sheet, Table, LABELS, PROCEDURES, ROWS};
use std::collections::BTreeMap;

/// Sheets for the report program: each is a process of its own.
const PROGRAM_SHEETS: u64 = 600;
/// Sheets and tables in process.
const CASES: u64 = 2_000;
/// Tables that are written into every room.
const WRITTEN: u64 = 400;
/// Tables that get procedures which main never reaches.
const ENLARGED: u64 = 1_000;
/// Recipes that do nothing but call.
const GRAPHS: u64 = 2_000;

#[test]
fn the_generator_s_recipes_are_admitted_and_of_many_shapes() {
    let mut wide = 0;
    let mut many_rounds = 0;
    let mut large = 0;
    let mut with_pairs = 0;
    let mut unreached = 0;
    let mut unreached_with_pairs = 0;
    for seed in 0..3000 {
        let table = gen::recipe(&mut Dice::new(seed));
        assert_eq!(judge(&table, LABELS), Ok(()), "seed {seed}");
        let bytes = sheet::spell(&table);
        assert_eq!(
            sheet::read(&bytes, ROWS, PROCEDURES),
            Ok(table.clone()),
            "seed {seed}"
        );
        large += usize::from(table.rows() > 300);
        if table.rows() <= 300 {
            let answer = second::work_out(&table);
            wide += usize::from(answer.wide);
            many_rounds += usize::from(answer.rounds > 5);
            let pairs = answer.matrix.iter().any(|&w| w != 0);
            with_pairs += usize::from(pairs);
            // A self-caller that main does not reach, and the verdict is exact all the same.
            let beside = !answer.wide && has_an_unreached_self_caller(&table);
            unreached += usize::from(beside);
            unreached_with_pairs += usize::from(beside && pairs);
        }
    }
    assert!(wide > 300, "wide {wide}");
    assert!(many_rounds > 100, "many rounds {many_rounds}");
    assert!(large > 30, "large {large}");
    assert!(with_pairs > 900, "with pairs {with_pairs}");
    assert!(unreached > 400, "unreached self-callers {unreached}");
    assert!(
        unreached_with_pairs > 80,
        "unreached self-callers beside pairs {unreached_with_pairs}"
    );
}

#[test]
fn the_verdict_on_call_graphs() {
    note_if_no_library("the comparison of call graphs");
    let versions = versions();
    let mut verdicts = [0; 2];
    for i in 0..GRAPHS {
        let dice = &mut Dice::new(compare::seed_of(16, i));
        let table = gen::call_graph(dice);
        let answer = second::work_out(&table);
        verdicts[usize::from(answer.wide)] += 1;
        let room = answer.listing.len();
        for (name, panel) in &versions {
            compare::listing(panel.as_ref(), dice, &table, Some(&answer), LABELS, room)
                .unwrap_or_else(|what| panic!("{name}, graph {i}: {what}\n{table:?}"));
        }
    }
    assert!(verdicts.iter().all(|&n| n > GRAPHS / 4), "{verdicts:?}");
}

#[test]
fn procedures_that_main_never_reaches_change_neither_pairs_nor_verdict() {
    note_if_no_library("the comparison with procedures that main never reaches");
    let versions = versions();
    for i in 0..ENLARGED {
        let dice = &mut Dice::new(compare::seed_of(15, i));
        let (rows, procedures) = (dice.between(4, 60), dice.between(1, 4));
        let table = gen::of_size(dice, rows, procedures);
        let before = second::work_out(&table);
        let more = gen::with_unreached(dice, &table);
        let answer = second::work_out(&more);
        assert!(more.roots.len() > table.roots.len());
        assert_eq!(
            (answer.matrix, answer.wide),
            (before.matrix, before.wide),
            "table {i}: {table:?}, {more:?}"
        );
        let room = answer.listing.len();
        for (name, panel) in &versions {
            compare::listing(panel.as_ref(), dice, &more, Some(&answer), LABELS, room)
                .unwrap_or_else(|what| panic!("{name}, table {i}: {what}\n{more:?}"));
        }
    }
}

#[test]
fn every_refusal_is_met_often() {
    let mut of_sheets: BTreeMap<u32, usize> = BTreeMap::new();
    let mut of_tables: BTreeMap<u32, usize> = BTreeMap::new();
    for seed in 0..5000 {
        let mut dice = Dice::new(seed);
        let bytes = gen::sheet(&mut dice);
        let outcome = sheet::read(&bytes, ROWS, PROCEDURES).and_then(|t| judge(&t, LABELS));
        *of_sheets
            .entry(outcome.err().map_or(0, |r| r.number))
            .or_default() += 1;
        let table = gen::table(&mut dice);
        let words = if seed % 20 == 0 { 63 } else { 64 };
        *of_tables
            .entry(judge(&table, words).err().map_or(0, |r| r.number))
            .or_default() += 1;
    }
    for number in [0, 1, 4, 5, 6, 7, 11, 12, 13] {
        let met = of_sheets.get(&number).copied().unwrap_or(0);
        assert!(
            met >= 50,
            "sheets: {number} met {met} times, all: {of_sheets:?}"
        );
    }
    for number in [0, 1, 2, 3, 4, 5, 6, 7] {
        let met = of_tables.get(&number).copied().unwrap_or(0);
        assert!(
            met >= 50,
            "tables: {number} met {met} times, all: {of_tables:?}"
        );
    }
}

#[test]
fn every_outcome_of_writing_is_met_often() {
    // By the refusal's number, and of 15 also where no row has the number.
    let mut met: BTreeMap<(u32, bool), usize> = BTreeMap::new();
    let mut empty = 0;
    let mut longest = 0;
    for seed in 0..5000 {
        let table = gen::to_write(&mut Dice::new(seed));
        let number = writable(&table).err().map_or(0, |r| r.number);
        let operands = table.xs.iter().chain(&table.ys);
        let of_root = number == 15 && operands.max().is_none_or(|&n| n <= 9999);
        *met.entry((number, of_root)).or_default() += 1;
        empty += usize::from(table == Table::default());
        longest += usize::from(number == 0 && sheet::spell(&table).len() > 15_000);
    }
    for outcome in [(0, false), (1, false), (3, false), (15, false), (15, true)] {
        let often = met.get(&outcome).copied().unwrap_or(0);
        assert!(often >= 200, "{outcome:?} met {often} times, all: {met:?}");
    }
    assert!(empty >= 10, "empty {empty}");
    assert!(longest >= 50, "longest {longest}");
}

#[test]
fn tables_are_written_the_same_in_every_room() {
    note_if_no_library("the writing of generated tables");
    for (name, panel) in versions() {
        for i in 0..WRITTEN {
            let dice = &mut Dice::new(compare::seed_of(14, i));
            let table = match i % 4 {
                0 => gen::recipe(dice),
                1 => gen::table(dice),
                _ => gen::to_write(dice),
            };
            for room in compare::rooms(&table) {
                compare::writing(panel.as_ref(), dice, &table, room)
                    .unwrap_or_else(|what| panic!("{name}, table {i}: {what}\n{table:?}"));
            }
        }
    }
}

#[test]
fn the_report_program_prints_the_same() {
    let Some(program) = report_program("the comparison of generated sheets") else {
        return;
    };
    for i in 0..PROGRAM_SHEETS {
        let bytes = gen::sheet(&mut Dice::new(compare::seed_of(11, i)));
        let ours = printed(&bytes);
        let theirs = run(&program, &bytes);
        assert!(
            ours == theirs,
            "sheet {i}: the second program prints\n{}the report program\n{}for {}",
            String::from_utf8_lossy(&ours),
            String::from_utf8_lossy(&theirs),
            shown(&bytes)
        );
    }
}

#[test]
fn the_entries_give_the_same() {
    note_if_no_library("the comparison of generated sheets and tables");
    for (name, panel) in versions() {
        for i in 0..CASES {
            let seed = compare::seed_of(12, i);
            if let Err(fault) = compare::one(panel.as_ref(), seed) {
                panic!("{name}, case {i}: {}\n{}", fault.what, shown(&fault.input));
            }
        }
    }
}
