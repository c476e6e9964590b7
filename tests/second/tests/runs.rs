//! Small recipes run by the steps (2) to (9): the pairs of labels that are
//! enabled at two different places of a state met in a run. Every one must be
//! marked, and where the verdict is `exact` every marked pair must be met.
//!
//! Runs of loops and of self-calls have no end, so states above a size are
//! left out and the search stops after so many states.

use second::calls::has_an_unreached_self_caller;
use second::dice::Dice;
use second::samples;
use second::table::Table;
use second::{gen, work_out};
use std::collections::{BTreeSet, HashSet};
use std::rc::Rc;

#[derive(PartialEq, Eq, Hash)]
enum State {
    Skip,
    Step(usize),
    Seq(Rc<State>, Rc<State>),
    Loop(Rc<State>),
    Async(Rc<State>),
    Finish(Rc<State>),
    Call(usize),
}

use State::*;

fn statement(table: &Table, row: usize) -> Rc<State> {
    let x = table.xs[row] as usize;
    let y = table.ys[row] as usize;
    Rc::new(match table.kinds[row] {
        0 => Skip,
        1 => Step(x),
        2 => Seq(statement(table, x), statement(table, y)),
        3 => Loop(statement(table, x)),
        4 => Async(statement(table, x)),
        5 => Finish(statement(table, x)),
        _ => Call(x),
    })
}

fn size(s: &State) -> usize {
    match s {
        Skip | Step(_) | Call(_) => 1,
        Seq(a, b) => 1 + size(a) + size(b),
        Loop(a) | Async(a) | Finish(a) => 1 + size(a),
    }
}

fn parallel(s: &State) -> bool {
    match s {
        Async(_) => true,
        Seq(a, b) => parallel(a) && parallel(b),
        _ => false,
    }
}

/// Every state that one step leads to.
fn steps(s: &Rc<State>, bodies: &[Rc<State>]) -> Vec<Rc<State>> {
    let mut all = Vec::new();
    match &**s {
        Skip => {}
        Step(_) => all.push(Rc::new(Skip)),
        Call(f) => all.push(bodies[*f].clone()),
        Loop(a) => {
            all.push(Rc::new(Skip));
            all.push(Rc::new(Seq(a.clone(), s.clone())));
        }
        Async(a) => {
            if **a == Skip {
                all.push(Rc::new(Skip));
            }
            all.extend(steps(a, bodies).into_iter().map(|t| Rc::new(Async(t))));
        }
        Finish(a) => {
            if **a == Skip {
                all.push(Rc::new(Skip));
            }
            all.extend(steps(a, bodies).into_iter().map(|t| Rc::new(Finish(t))));
        }
        Seq(a, b) => {
            if **a == Skip {
                all.push(b.clone());
            }
            all.extend(
                steps(a, bodies)
                    .into_iter()
                    .map(|t| Rc::new(Seq(t, b.clone()))),
            );
            if parallel(a) {
                if **b == Skip {
                    all.push(a.clone());
                }
                all.extend(
                    steps(b, bodies)
                        .into_iter()
                        .map(|t| Rc::new(Seq(a.clone(), t))),
                );
            }
        }
    }
    all
}

/// The labels that stand at an allowed context, one for each place.
fn enabled(s: &State, places: &mut Vec<usize>) {
    match s {
        Step(l) => places.push(*l),
        Seq(a, b) => {
            enabled(a, places);
            if parallel(a) {
                enabled(b, places);
            }
        }
        Async(a) | Finish(a) => enabled(a, places),
        Skip | Loop(_) | Call(_) => {}
    }
}

/// The pairs met, i not above j, and if the search came to an end by itself.
fn met(table: &Table, most_states: usize, most_size: usize) -> (BTreeSet<(usize, usize)>, bool) {
    let bodies: Vec<Rc<State>> = table
        .roots
        .iter()
        .map(|&r| statement(table, r as usize))
        .collect();
    let mut seen: HashSet<Rc<State>> = HashSet::new();
    let mut pairs = BTreeSet::new();
    let mut whole = true;
    let mut layer = vec![bodies[0].clone()];
    seen.insert(bodies[0].clone());
    while !layer.is_empty() {
        let mut next = Vec::new();
        for state in layer {
            let mut places = Vec::new();
            enabled(&state, &mut places);
            for i in 0..places.len() {
                for j in 0..i {
                    let (a, b) = (places[i], places[j]);
                    pairs.insert((a.min(b), a.max(b)));
                }
            }
            for t in steps(&state, &bodies) {
                if size(&t) > most_size || seen.len() >= most_states {
                    whole = false;
                } else if seen.insert(t.clone()) {
                    next.push(t);
                }
            }
        }
        layer = next;
    }
    (pairs, whole)
}

fn marked(table: &Table) -> (BTreeSet<(usize, usize)>, bool) {
    let answer = work_out(table);
    let mut pairs = BTreeSet::new();
    for i in 0..64 {
        for j in i..64 {
            if answer.matrix[i] >> j & 1 == 1 {
                pairs.insert((i, j));
            }
        }
    }
    (pairs, answer.wide)
}

#[test]
fn the_documents_recipes_run() {
    let exact = [
        samples::whole_case(),
        samples::figure_first(),
        samples::small(3),
        samples::small(4),
        samples::small(5),
        samples::small(6),
        samples::small(7),
        samples::small(8),
        samples::small(9),
        samples::small(12),
        samples::unused_caller_of_self_call(),
    ];
    for table in exact {
        let (marked, wide) = marked(&table);
        assert!(!wide);
        assert_eq!(met(&table, 20_000, 40).0, marked, "{table:?}");
    }
    // Marked, but met in no run.
    for table in [
        samples::small(10),
        samples::small(11),
        samples::figure_second(),
    ] {
        assert_eq!(marked(&table).0.len(), 1);
        assert!(met(&table, 5000, 40).0.is_empty(), "{table:?}");
    }
    // The wire test beside loading is met; heating, which nobody comes to, is marked beside the wire test.
    let below = samples::self_call_two_below();
    assert_eq!(marked(&below).0, BTreeSet::from([(0, 1), (0, 2)]));
    assert_eq!(met(&below, 5000, 40), (BTreeSet::from([(0, 2)]), true));
    // Two turns of the loop beside each other meet every pair, although the chains never end.
    let third = samples::figure_third(2);
    assert_eq!(met(&third, 20_000, 16).0, marked(&third).0);
}

#[test]
fn generated_recipes_run() {
    let mut exact = 0;
    let mut cut = 0;
    let mut unreached = 0;
    let mut unreached_with_pairs = 0;
    for seed in 0..2000 {
        let mut dice = Dice::new(seed);
        let rows = dice.between(3, 11);
        let procedures = dice.between(1, 3);
        let mut table = gen::of_size(&mut dice, rows, procedures);
        if dice.chance(50) {
            table = gen::with_unreached(&mut dice, &table);
        }
        let (marked, wide) = marked(&table);
        let (met, whole) = met(&table, 1500, 36);
        assert!(
            met.is_subset(&marked),
            "seed {seed}: met {met:?}, marked {marked:?}, {table:?}"
        );
        if wide {
            continue;
        }
        exact += 1;
        if has_an_unreached_self_caller(&table) {
            unreached += 1;
            unreached_with_pairs += usize::from(!marked.is_empty());
        }
        if met != marked {
            assert!(
                !whole,
                "seed {seed}: met {met:?}, marked {marked:?}, {table:?}"
            );
            cut += 1;
        }
    }
    assert!(exact > 600, "only {exact} exact recipes");
    assert!(
        unreached > 500,
        "only {unreached} with an unreached self-caller"
    );
    assert!(
        unreached_with_pairs > 50,
        "only {unreached_with_pairs} of them with pairs"
    );
    assert!(
        cut * 50 <= exact,
        "{cut} of {exact} searches were cut off before every pair was met"
    );
}
