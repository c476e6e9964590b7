//! The rounds counted naively: every body anew in each round, whole sets compared.

use crate::sets::Summary;
use crate::table::Table;

/// All bodies worked out from the summaries `held` for the procedures.
fn round(table: &Table, held: &[Summary]) -> Vec<Summary> {
    let mut done: Vec<Summary> = Vec::with_capacity(table.rows());
    for row in 0..table.rows() {
        let x = table.xs[row] as usize;
        let y = table.ys[row] as usize;
        let summary = match table.kinds[row] {
            0 => Summary::empty(),
            1 => {
                let mut s = Summary::empty();
                s.l.put(x);
                s
            }
            2 => {
                let mut s = done[x].clone();
                s.m.join(&done[y].m);
                s.m.cross(&done[x].o, &done[y].l);
                s.o.join(&done[y].o);
                s.l.join(&done[y].l);
                s
            }
            3 => {
                let mut s = done[x].clone();
                s.m.cross(&done[x].o, &done[x].l);
                s
            }
            4 => {
                let mut s = done[x].clone();
                s.o = s.l.clone();
                s
            }
            5 => {
                let mut s = done[x].clone();
                s.o = crate::sets::Labels::empty();
                s
            }
            6 => held[x].clone(),
            kind => unreachable!("kind {kind} in an admitted table"),
        };
        done.push(summary);
    }
    table
        .roots
        .iter()
        .map(|&r| done[r as usize].clone())
        .collect()
}

/// The least k at which round k + 1 equals round k, and the summaries of round k.
pub fn count(table: &Table) -> (usize, Vec<Summary>) {
    let mut held = vec![Summary::empty(); table.roots.len()];
    let mut k = 0;
    loop {
        let next = round(table, &held);
        if next == held {
            return (k, held);
        }
        held = next;
        k += 1;
    }
}
