//! Named recipes: those of the documents, and families that reach a limit.

use crate::table::Table;

/// A statement as it is written down; `recipe` turns it into rows.
#[derive(Clone)]
pub enum Statement {
    Skip,
    Step(usize),
    Seq(Box<Statement>, Box<Statement>),
    Loop(Box<Statement>),
    Async(Box<Statement>),
    Finish(Box<Statement>),
    Call(usize),
}

use Statement::*;

pub fn skip() -> Statement {
    Skip
}

pub fn step(l: usize) -> Statement {
    Step(l)
}

pub fn seq(first: Statement, second: Statement) -> Statement {
    Seq(Box::new(first), Box::new(second))
}

pub fn looped(body: Statement) -> Statement {
    Loop(Box::new(body))
}

pub fn spawned(body: Statement) -> Statement {
    Async(Box::new(body))
}

pub fn waited(body: Statement) -> Statement {
    Finish(Box::new(body))
}

pub fn call(p: usize) -> Statement {
    Call(p)
}

fn rows_of(table: &mut Table, s: &Statement) -> usize {
    match s {
        Skip => table.push(0, 0, 0),
        Step(l) => table.push(1, *l, 0),
        Seq(a, b) => {
            let x = rows_of(table, a);
            let y = rows_of(table, b);
            table.push(2, x, y)
        }
        Loop(a) => {
            let x = rows_of(table, a);
            table.push(3, x, 0)
        }
        Async(a) => {
            let x = rows_of(table, a);
            table.push(4, x, 0)
        }
        Finish(a) => {
            let x = rows_of(table, a);
            table.push(5, x, 0)
        }
        Call(p) => table.push(6, *p, 0),
    }
}

/// The rows of the bodies, children first and left before right, main first.
pub fn recipe(bodies: &[Statement]) -> Table {
    let mut table = Table::default();
    for body in bodies {
        let root = rows_of(&mut table, body);
        table.roots.push(root as u16);
    }
    table
}

/// The whole case: async{0}; (finish{async{1}; 2}; 3).
pub fn whole_case() -> Table {
    recipe(&[seq(
        spawned(step(0)),
        seq(waited(seq(spawned(step(1)), step(2))), step(3)),
    )])
}

/// Small recipe `number` of the list, 1 to 12.
pub fn small(number: usize) -> Table {
    match number {
        1 => recipe(&[skip()]),
        2 => recipe(&[step(5)]),
        3 => recipe(&[seq(spawned(step(5)), step(6))]),
        4 => recipe(&[seq(waited(spawned(step(5))), step(6))]),
        5 => recipe(&[looped(spawned(step(0)))]),
        6 => recipe(&[looped(step(0))]),
        7 => recipe(&[seq(spawned(seq(step(0), spawned(step(1)))), step(2))]),
        8 => recipe(&[seq(call(1), step(1)), spawned(step(0))]),
        9 => recipe(&[seq(call(1), step(1)), waited(spawned(step(0)))]),
        10 => recipe(&[seq(seq(call(0), step(0)), spawned(call(0)))]),
        11 => recipe(&[looped(seq(spawned(step(0)), call(1))), call(1)]),
        12 => recipe(&[skip(), call(1)]),
        _ => panic!("no small recipe {number}"),
    }
}

/// Main calls p1 and then heats (1). p1 starts the wire test (0) as a side branch and calls p2, which loads (2) and calls
/// itself: it never comes back, so no run heats.
pub fn self_call_two_below() -> Table {
    recipe(&[seq(call(1), step(1)), test_and_load(), load_for_ever()])
}

/// The same p1 and p2 left on the sheet of a main that starts the wire test by itself, and then heats: nobody calls p1.
pub fn unused_caller_of_self_call() -> Table {
    recipe(&[
        seq(spawned(step(0)), step(1)),
        test_and_load(),
        load_for_ever(),
    ])
}

fn test_and_load() -> Statement {
    seq(spawned(step(0)), call(2))
}

fn load_for_ever() -> Statement {
    seq(step(2), call(2))
}

/// Figure 1, first program; f is procedure 1.
pub fn figure_first() -> Table {
    recipe(&[
        seq(
            waited(seq(spawned(step(2)), step(3))),
            looped(spawned(call(1))),
        ),
        step(1),
    ])
}

/// Figure 1, second program; g is procedure 1.
pub fn figure_second() -> Table {
    recipe(&[looped(seq(spawned(step(1)), call(1))), call(1)])
}

/// Figure 1, third program: chain0 to chainN are procedures 1 to n + 1.
pub fn figure_third(n: usize) -> Table {
    let mut bodies = vec![looped(spawned(call(1)))];
    for i in 0..=n {
        let next = if i == n { 1 } else { i + 2 };
        bodies.push(seq(step(i), call(next)));
    }
    recipe(&bodies)
}

/// A ring of n procedures that takes exactly 3n rounds.
///
/// Every procedure but the last only calls the next one; the last is
/// (call 0; 0); async{call 0}. Label 0 enters L of the last procedure in round
/// 1 and goes back along the calls one procedure a round, so procedure 0 has
/// it in round n. The async then gives the last procedure its O in round
/// n + 1, and O of procedure 0 follows in round 2n. Only now `call 0; 0` has
/// something to cross: M of the last procedure in round 2n + 1, of procedure 0
/// in round 3n. For n = 1 this is small recipe 10.
pub fn ring(n: usize) -> Table {
    recipe(&ring_from(0, n))
}

/// The bodies of such a ring from procedure `first` up to, but without, procedure `end`.
fn ring_from(first: usize, end: usize) -> Vec<Statement> {
    let mut bodies: Vec<Statement> = (first + 1..end).map(call).collect();
    bodies.push(seq(seq(call(first), step(0)), spawned(call(first))));
    bodies
}

/// A body of `rows` rows, one inside the other: `wrap` round a step of label 0.
pub fn nested(rows: usize, wrap: impl Fn(usize, Statement) -> Statement) -> Table {
    let mut body = step(0);
    for i in 1..rows {
        body = wrap(i, body);
    }
    recipe(&[body])
}

/// Steps 0 to n - 1, each a side branch, one after the other inside a loop: every pair.
pub fn all_together(n: usize) -> Statement {
    let mut body = spawned(step(0));
    for l in 1..n {
        body = seq(body, spawned(step(l)));
    }
    looped(body)
}

/// The recipe with the longest listing: main has every pair by itself and calls nobody, so the verdict is `exact`, the longer
/// one; the rounds have three digits by a ring of all the other procedures, which main never reaches.
pub fn longest_listing() -> Table {
    let last = step(crate::LABELS - 1);
    let steps = (0..crate::LABELS - 1)
        .rev()
        .fold(last, |rest, l| seq(step(l), rest));
    let mut bodies = vec![looped(spawned(steps))];
    bodies.extend(ring_from(1, crate::PROCEDURES));
    recipe(&bodies)
}

/// The ring of 64 procedures with bodies that hold 1,024 rows in all: 3 × 64
/// rounds, every label in use.
pub fn large_ring() -> Table {
    let n = crate::PROCEDURES;
    let mut bodies = ring_from(0, n);
    // 63 + 6 rows so far. A step with its seq is 2 rows: 477 of them make 1,023,
    // and a finish round one of the steps makes 1,024. A step before the call
    // adds its label to L and delays nothing.
    for k in 0..477 {
        let p = k % n;
        let mut extra = step(1 + k % 63);
        if k == 0 {
            extra = waited(extra);
        }
        bodies[p] = seq(extra, bodies[p].clone());
    }
    recipe(&bodies)
}

/// 64 procedures and 1,024 rows that settle after two rounds: main calls all the others.
pub fn large_flat() -> Table {
    let n = crate::PROCEDURES;
    let mut bodies = vec![skip()];
    for p in 1..n {
        // 14 rows: async{p}; finish{async{p - 1}; p}; skip; skip
        bodies.push(seq(
            spawned(step(p)),
            seq(
                waited(seq(spawned(step(p - 1)), step(p))),
                seq(step(0), seq(skip(), skip())),
            ),
        ));
    }
    let mut main = call(1);
    for p in 2..n {
        main = seq(main, call(p));
    }
    bodies[0] = main;
    let mut table_rows = recipe(&bodies).rows();
    while table_rows < crate::ROWS {
        bodies[0] = waited(bodies[0].clone());
        table_rows += 1;
    }
    recipe(&bodies)
}
