//! Who calls whom, and the verdict on the listing's first line.

use crate::table::Table;

/// For each procedure the procedures that its body calls.
pub fn called(table: &Table) -> Vec<Vec<usize>> {
    table
        .roots
        .iter()
        .map(|&root| {
            let mut found = Vec::new();
            let mut open = vec![root as usize];
            while let Some(row) = open.pop() {
                if table.kinds[row] == 6 {
                    found.push(table.xs[row] as usize);
                }
                open.extend(table.children(row));
            }
            found
        })
        .collect()
}

/// Which procedures `start` comes to by one or more calls.
fn reached(called: &[Vec<usize>], start: usize) -> Vec<bool> {
    let mut seen = vec![false; called.len()];
    let mut open = called[start].clone();
    while let Some(p) = open.pop() {
        if !std::mem::replace(&mut seen[p], true) {
            open.extend(&called[p]);
        }
    }
    seen
}

/// For each procedure: whether main reaches it by calls, main included, and
/// whether it comes back to itself by calls.
fn reached_and_self_calling(table: &Table) -> Vec<(bool, bool)> {
    let called = called(table);
    let from_main = reached(&called, 0);
    (0..called.len())
        .map(|p| (p == 0 || from_main[p], reached(&called, p)[p]))
        .collect()
}

/// True if some procedure that main reaches, main included, comes back to itself.
pub fn main_reaches_a_self_caller(table: &Table) -> bool {
    reached_and_self_calling(table).contains(&(true, true))
}

/// True if some procedure that main does not reach comes back to itself.
pub fn has_an_unreached_self_caller(table: &Table) -> bool {
    reached_and_self_calling(table).contains(&(false, true))
}
