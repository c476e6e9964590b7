//! Sheets and tables from a seed: valid ones of many shapes, and damaged ones.

use crate::dice::Dice;
use crate::samples;
use crate::sheet::{spell, KEYWORDS};
use crate::table::Table;
use crate::{LONGEST_NUMBER, PROCEDURES, ROWS, SHEET_BYTES};

/// Whom the calls of a generated recipe call.
#[derive(Clone, Copy)]
enum Calls {
    /// A procedure with a higher number: nobody reaches itself.
    Forward,
    /// The next procedure, and the last one main.
    Ring,
    /// Anybody.
    Anybody,
    /// The calling procedure, now and then another.
    Itself,
    /// One and the same procedure.
    Favourite,
}

/// How a generated recipe looks.
struct Style {
    /// Weights of leaves, of rows with one child, of sequences.
    arity: [usize; 3],
    /// Weights of skip, step, call.
    leaves: [usize; 3],
    /// Weights of loop, async, finish.
    single: [usize; 3],
    /// The labels lie in `first_label ..= last_label`.
    first_label: usize,
    last_label: usize,
    /// How often, of a hundred, the last row made becomes the next child.
    deep: usize,
    calls: Calls,
}

fn style(dice: &mut Dice) -> Style {
    let spread = dice.one_of(&[1, 2, 2, 3, 5, 12, 64]);
    let first_label = if spread == 64 {
        0
    } else {
        dice.between(0, 64 - spread)
    };
    let arity = dice.one_of(&[[4, 3, 4], [1, 8, 1], [5, 1, 5], [3, 6, 3], [2, 2, 9]]);
    let leaves = dice.one_of(&[[1, 6, 3], [0, 1, 0], [1, 2, 6], [6, 2, 2], [0, 1, 1]]);
    let single = dice.one_of(&[
        [1, 2, 1],
        [2, 1, 1],
        [1, 1, 3],
        [1, 4, 0],
        [0, 1, 0],
        [1, 0, 1],
    ]);
    Style {
        arity,
        leaves,
        single,
        first_label,
        last_label: first_label + spread - 1,
        deep: dice.one_of(&[0, 50, 90, 100]),
        calls: dice.one_of(&[
            Calls::Forward,
            Calls::Forward,
            Calls::Ring,
            Calls::Anybody,
            Calls::Itself,
            Calls::Favourite,
        ]),
    }
}

/// Which procedure each row belongs to.
fn owners(table: &Table) -> Vec<usize> {
    let mut owner = vec![0; table.rows()];
    for (p, &root) in table.roots.iter().enumerate() {
        owner[root as usize] = p;
    }
    for row in (0..table.rows()).rev() {
        for child in table.children(row) {
            owner[child] = owner[row];
        }
    }
    owner
}

/// Rows are made one after the other; those not yet used by a later row are
/// kept loose, and at the end as many are loose as there are procedures.
fn grown(dice: &mut Dice, rows: usize, procedures: usize) -> Table {
    let style = style(dice);
    let mut table = Table::default();
    let mut loose: Vec<usize> = Vec::new();
    for made in 0..rows {
        let after = rows - made - 1;
        let fits = |n: usize| n >= 1 && n.abs_diff(procedures) <= after;
        let now = loose.len();
        let may = [
            fits(now + 1),
            now >= 1 && fits(now),
            now >= 2 && fits(now - 1),
        ];
        let mut weights = [0; 3];
        for arity in 0..3 {
            weights[arity] = if may[arity] { style.arity[arity] } else { 0 };
        }
        let mut take = |dice: &mut Dice| {
            if dice.chance(style.deep) {
                loose.pop().unwrap()
            } else {
                let at = dice.below(loose.len());
                loose.remove(at)
            }
        };
        let row = match dice.weighted(&weights) {
            0 => match dice.weighted(&style.leaves) {
                0 => table.push(0, 0, 0),
                1 => {
                    let label = dice.between(style.first_label, style.last_label);
                    table.push(1, label, 0)
                }
                _ => table.push(6, 0, 0),
            },
            1 => {
                let x = take(dice);
                let kind = 3 + dice.weighted(&style.single) as u8;
                table.push(kind, x, 0)
            }
            _ => {
                let a = take(dice);
                let b = take(dice);
                if dice.chance(50) {
                    table.push(2, a, b)
                } else {
                    table.push(2, b, a)
                }
            }
        };
        loose.push(row);
    }
    dice.shuffle(&mut loose);
    table.roots = loose.iter().map(|&r| r as u16).collect();
    let owner = owners(&table);
    let favourite = dice.below(procedures);
    for (row, &me) in owner.iter().enumerate() {
        if table.kinds[row] != 6 {
            continue;
        }
        let target = match style.calls {
            Calls::Forward if me + 1 == procedures => None,
            Calls::Forward => Some(dice.between(me + 1, procedures - 1)),
            Calls::Ring => Some((me + 1) % procedures),
            Calls::Anybody => Some(dice.below(procedures)),
            Calls::Itself if dice.chance(80) => Some(me),
            Calls::Itself => Some(dice.below(procedures)),
            Calls::Favourite => Some(favourite),
        };
        match target {
            Some(p) => table.xs[row] = p as u16,
            None => {
                table.kinds[row] = 1;
                table.xs[row] = style.first_label as u16;
            }
        }
    }
    table
}

/// A recipe of exactly these sizes, `procedures` not above `rows`, that the judge admits.
pub fn of_size(dice: &mut Dice, rows: usize, procedures: usize) -> Table {
    grown(dice, rows, procedures)
}

/// The same recipe with its procedures numbered otherwise, main too.
fn renumbered(dice: &mut Dice, table: &Table) -> Table {
    let mut new_number: Vec<usize> = (0..table.roots.len()).collect();
    dice.shuffle(&mut new_number);
    numbered(table, &new_number)
}

/// The recipe with a new number for each procedure.
fn numbered(table: &Table, new_number: &[usize]) -> Table {
    let mut changed = table.clone();
    for (p, &root) in table.roots.iter().enumerate() {
        changed.roots[new_number[p]] = root;
    }
    for row in 0..table.rows() {
        if table.kinds[row] == 6 {
            changed.xs[row] = new_number[table.xs[row] as usize] as u16;
        }
    }
    changed
}

/// The recipe with up to three procedures more that main does not reach: each
/// calls itself, one of the others that were added, or anybody. Main stays
/// procedure 0, the others are numbered anew.
pub fn with_unreached(dice: &mut Dice, table: &Table) -> Table {
    let mut table = table.clone();
    let before = table.roots.len();
    let places = (PROCEDURES - before).min((ROWS - table.rows()) / 3);
    let after = before + dice.between(1, 3).min(places);
    for p in before..after {
        let target = match dice.below(4) {
            0 | 1 => p,
            2 => dice.between(before, after - 1),
            _ => dice.below(after),
        };
        let called = table.push(6, target, 0);
        let root = match dice.below(3) {
            0 => called,
            1 => table.push(dice.one_of(&[3, 4, 5]), called, 0),
            _ => {
                let step = table.push(1, dice.below(64), 0);
                table.push(2, step, called)
            }
        };
        table.roots.push(root as u16);
    }
    let mut new_number: Vec<usize> = (0..after).collect();
    dice.shuffle(&mut new_number[1..]);
    numbered(&table, &new_number)
}

/// Procedures that do nothing but call: each calls nobody, one or two of all,
/// so that main often comes to a self-caller only by several calls.
pub fn call_graph(dice: &mut Dice) -> Table {
    let most = dice.one_of(&[6, 12, PROCEDURES]);
    let fewer = dice.between(2, most);
    let n = dice.one_of(&[most, fewer]);
    let bodies: Vec<samples::Statement> = (0..n)
        .map(|_| {
            let [one, other] = [0; 2].map(|_| samples::call(dice.below(n)));
            match dice.below(8) {
                0..=1 => samples::skip(),
                2..=6 => one,
                _ => samples::seq(one, other),
            }
        })
        .collect();
    samples::recipe(&bodies)
}

/// A recipe that the judge admits.
pub fn recipe(dice: &mut Dice) -> Table {
    let table = shape(dice);
    if dice.chance(25) {
        with_unreached(dice, &table)
    } else {
        table
    }
}

/// A recipe of one of the shapes.
fn shape(dice: &mut Dice) -> Table {
    let (low, high) = match dice.weighted(&[40, 30, 22, 6, 2]) {
        0 => (1, 12),
        1 => (5, 40),
        2 => (30, 120),
        3 => (100, 300),
        _ => (300, ROWS),
    };
    match dice.weighted(&[82, 4, 5, 4, 2, 2, 1]) {
        0 => {
            let rows = dice.between(low, high);
            let most = rows.min(PROCEDURES);
            let procedures = match dice.below(4) {
                0 => 1,
                1 => dice.between(1, most.min(4)),
                2 => dice.between(1, most),
                _ => dice.between(1, (rows / 4).clamp(1, PROCEDURES)),
            };
            grown(dice, rows, procedures)
        }
        1 => {
            // A deep chain of rows with one child, or of sequences.
            let rows = dice.between(low, high);
            let kinds = dice.one_of(&[[3, 4, 5], [4, 4, 4], [3, 3, 3], [2, 2, 2], [2, 4, 3]]);
            let labels = dice.one_of(&[1, 2, 64]);
            let mut table = Table::default();
            let mut top = table.push(1, dice.below(labels), 0);
            while table.rows() < rows {
                let kind = dice.one_of(&kinds);
                if kind != 2 {
                    top = table.push(kind, top, 0);
                } else if table.rows() + 2 <= rows {
                    let other = table.push(1, dice.below(labels), 0);
                    top = if dice.chance(50) {
                        table.push(2, top, other)
                    } else {
                        table.push(2, other, top)
                    };
                } else {
                    top = table.push(5, top, 0);
                }
            }
            table.roots.push(top as u16);
            table
        }
        2 => {
            let ring = samples::ring(dice.one_of(&[1, 1, 2, 2, 3, 3, 4, 5, 7, 16, 33, 64]));
            renumbered(dice, &ring)
        }
        3 => {
            let n = dice.one_of(&[0, 1, 2, 3, 8, 20]);
            let table = samples::figure_third(n);
            if dice.chance(50) {
                renumbered(dice, &table)
            } else {
                table
            }
        }
        4 => {
            // A line of procedures, each calling the next: many rounds, nobody reaches itself.
            let n = dice.between(1, PROCEDURES);
            let mut bodies: Vec<samples::Statement> = (1..n)
                .map(|p| {
                    let tail = samples::call(p);
                    match dice.below(4) {
                        0 => samples::spawned(tail),
                        1 => samples::seq(tail, samples::step(p % 64)),
                        2 => samples::waited(tail),
                        _ => tail,
                    }
                })
                .collect();
            bodies.push(samples::spawned(samples::step(dice.below(64))));
            let table = samples::recipe(&bodies);
            if dice.chance(50) {
                renumbered(dice, &table)
            } else {
                table
            }
        }
        5 => samples::recipe(&[samples::all_together(dice.between(1, 64))]),
        _ => {
            let procedures = dice.between(1, PROCEDURES);
            exactly(dice, ROWS, procedures)
        }
    }
}

/// Rows and procedures of these numbers, cheap to work out, in order save for the sizes.
fn exactly(dice: &mut Dice, rows: usize, procedures: usize) -> Table {
    let mut table = Table::default();
    for p in 0..procedures.min(rows).saturating_sub(1) {
        let row = match dice.below(3) {
            0 => table.push(0, 0, 0),
            1 => table.push(1, p % 64, 0),
            _ => table.push(6, dice.below(procedures), 0),
        };
        table.roots.push(row as u16);
    }
    if rows > table.rows() {
        let mut top = table.push(1, dice.below(64), 0);
        while table.rows() < rows {
            top = if rows - table.rows() >= 2 && dice.chance(70) {
                let other = table.push(0, 0, 0);
                table.push(2, top, other)
            } else {
                table.push(dice.one_of(&[3, 4, 5]), top, 0)
            };
        }
        table.roots.push(top as u16);
    }
    table
}

/// A row of one of these kinds, if there is one.
fn some_row(dice: &mut Dice, table: &Table, kinds: &[u8]) -> Option<usize> {
    let found: Vec<usize> = (0..table.rows())
        .filter(|&r| kinds.contains(&table.kinds[r]))
        .collect();
    if found.is_empty() {
        None
    } else {
        Some(dice.one_of(&found))
    }
}

/// Puts a leaf of this kind in at row `at`; the rows from there on move up by one.
fn insert(table: &mut Table, at: usize, kind: u8) {
    let moved = |row: u16| if row as usize >= at { row + 1 } else { row };
    for row in 0..table.rows() {
        match table.kinds[row] {
            2 => {
                table.xs[row] = moved(table.xs[row]);
                table.ys[row] = moved(table.ys[row]);
            }
            3..=5 => table.xs[row] = moved(table.xs[row]),
            _ => {}
        }
    }
    for root in &mut table.roots {
        *root = moved(*root);
    }
    table.kinds.insert(at, kind);
    table.xs.insert(at, 0);
    table.ys.insert(at, 0);
}

/// Breaks a rule of the table, or nearly; what a sheet can spell.
fn spoil(dice: &mut Dice, table: &mut Table) {
    let rows = table.rows();
    let procedures = table.roots.len();
    match dice.below(16) {
        0 => {
            if let Some(row) = some_row(dice, table, &[1]) {
                table.xs[row] = dice.one_of(&[62, 63, 63, 64, 64, 65, 9999]);
            }
        }
        1 => {
            if let Some(row) = some_row(dice, table, &[6]) {
                let p = procedures as u16;
                table.xs[row] = dice.one_of(&[p - 1, p, p, p + 1, 63, 64, 9999]);
            }
        }
        2 => {
            if let Some(row) = some_row(dice, table, &[2, 3, 4, 5]) {
                let r = row as u16;
                let child = dice.one_of(&[r, r, r + 1, rows as u16, r.saturating_sub(1), 9999]);
                if table.kinds[row] == 2 && dice.chance(50) {
                    table.ys[row] = child;
                } else {
                    table.xs[row] = child;
                }
            }
        }
        3 => {
            if let Some(row) = some_row(dice, table, &[0, 1, 3, 4, 5, 6]) {
                if table.kinds[row] == 0 && dice.chance(50) {
                    table.xs[row] = dice.one_of(&[1, 2, 9999]);
                } else {
                    table.ys[row] = dice.one_of(&[1, 2, 9999]);
                }
            }
        }
        4 | 5 => {
            // Roots that are no row, once or twice.
            for _ in 0..dice.between(1, 2) {
                let p = dice.below(procedures);
                table.roots[p] = dice.one_of(&[rows as u16, rows as u16, rows as u16 + 1, 9999]);
            }
        }
        6 => {
            let p = dice.below(procedures);
            table.roots[p] = dice.below(rows) as u16;
        }
        7 => {
            if let Some(row) = some_row(dice, table, &[2]) {
                table.ys[row] = table.xs[row];
            }
        }
        8 => {
            // A row more that nobody uses, or that somebody else uses already.
            table.push(0, 0, 0);
            if dice.chance(30) {
                table.push(3, dice.below(rows), 0);
            }
        }
        9 => {
            table.roots.remove(dice.below(procedures));
        }
        10 => table.roots.push(dice.below(rows) as u16),
        11 => {
            let row = dice.below(rows);
            table.kinds[row] = dice.below(7) as u8;
        }
        12 => {
            let (a, b) = (dice.below(rows), dice.below(rows));
            table.kinds.swap(a, b);
            table.xs.swap(a, b);
            table.ys.swap(a, b);
        }
        13 | 14 => {
            // One or two rows more that nobody uses, between the others.
            for _ in 0..dice.between(1, 2) {
                let at = dice.between(0, table.rows());
                insert(table, at, dice.below(2) as u8);
            }
        }
        _ => {
            if dice.chance(50) {
                table.roots.clear();
            } else {
                *table = Table {
                    roots: table.roots.clone(),
                    ..Table::default()
                };
            }
        }
    }
}

/// The lines of a sheet, each with its newline.
fn lines(bytes: &[u8]) -> Vec<Vec<u8>> {
    bytes
        .split_inclusive(|&b| b == b'\n')
        .map(<[u8]>::to_vec)
        .collect()
}

/// Damages the text of a sheet.
fn scratch(dice: &mut Dice, bytes: &mut Vec<u8>) {
    if bytes.is_empty() {
        return;
    }
    let at = dice.below(bytes.len());
    match dice.below(18) {
        0 => bytes[at] ^= 1 << dice.below(8),
        1 => bytes[at] = dice.draw() as u8,
        2 => bytes.truncate(at),
        3 => {
            bytes.pop();
        }
        4 => {
            let ends: Vec<usize> = (0..bytes.len()).filter(|&i| bytes[i] == b'\n').collect();
            if !ends.is_empty() {
                bytes.remove(dice.one_of(&ends));
            }
        }
        5 => {
            let ends: Vec<usize> = (0..bytes.len()).filter(|&i| bytes[i] == b'\n').collect();
            if !ends.is_empty() {
                bytes.insert(dice.one_of(&ends), b'\r');
            }
        }
        6 => bytes.insert(at, dice.one_of(b"\t\n\r 09RP\0\xff")),
        7 => {
            bytes.remove(at);
        }
        8 | 9 => {
            let mut all = lines(bytes);
            let (a, b) = (dice.below(all.len()), dice.below(all.len()));
            all.swap(a, b);
            *bytes = all.concat();
        }
        10 => {
            let mut all = lines(bytes);
            let a = dice.below(all.len());
            all.insert(dice.between(0, all.len()), all[a].clone());
            *bytes = all.concat();
        }
        11 => {
            let mut all = lines(bytes);
            all.remove(dice.below(all.len()));
            *bytes = all.concat();
        }
        12 => {
            let mut all = lines(bytes);
            let line = dice.one_of(&[
                &b"\n"[..],
                b"R\tskip\t0\t0\n",
                b"P\t0\n",
                b"R\tskip\t00\t0\n",
                b"R\tskip\t0\t01\n",
                b"R\tskip\t10000\t0\n",
                b"R\tskip\t9999\t9999\n",
                b"R\tskip\t0\n",
                b"R\tskip\t0\t0\t0\n",
                b"R\tskip\t0\t0\t\n",
                b"R\tskip\t\t0\n",
                b"R\tSkip\t0\t0\n",
                b"R\tski\t0\t0\n",
                b"R\tskipp\t0\t0\n",
                b"R\t0\t0\t0\n",
                b"r\tskip\t0\t0\n",
                b"R skip 0 0\n",
                b"R\tskip\t+1\t0\n",
                b"R\tskip\t-1\t0\n",
                b"R\tskip\t0x\t0\n",
                b"P\t\n",
                b"P\n",
                b"P\t0\t0\n",
                b"P\t00\n",
                b"P\t12345\n",
                b"P\t65536\n",
                b"PP\t0\n",
                b"\tP\t0\n",
                b"P \t0\n",
            ]);
            all.insert(dice.between(0, all.len()), line.to_vec());
            *bytes = all.concat();
        }
        13 => {
            let tabs: Vec<usize> = (0..bytes.len()).filter(|&i| bytes[i] == b'\t').collect();
            if !tabs.is_empty() {
                let tab = dice.one_of(&tabs);
                match dice.below(4) {
                    0 => bytes[tab] = b' ',
                    1 => bytes.insert(tab, b'\t'),
                    2 => bytes.insert(tab + 1, b'0'),
                    _ => {
                        bytes.remove(tab);
                    }
                }
            }
        }
        14 => {
            // A longer number.
            let digits: Vec<usize> = (0..bytes.len())
                .filter(|&i| bytes[i].is_ascii_digit())
                .collect();
            if !digits.is_empty() {
                let digit = dice.one_of(&digits);
                for _ in 0..dice.between(1, 4) {
                    bytes.insert(digit, dice.one_of(b"0123456789"));
                }
            }
        }
        15 => {
            // Another digit: mostly another operand.
            let digits: Vec<usize> = (0..bytes.len())
                .filter(|&i| bytes[i].is_ascii_digit())
                .collect();
            if !digits.is_empty() {
                bytes[dice.one_of(&digits)] = dice.one_of(b"0123456789");
            }
        }
        16 => {
            // Another keyword.
            let mut all = lines(bytes);
            let a = dice.below(all.len());
            let fields: Vec<&[u8]> = all[a].split(|&b| b == b'\t').collect();
            if fields.len() == 4 {
                let keyword = dice.one_of(&KEYWORDS).as_bytes();
                let new = [fields[0], keyword, fields[2], fields[3]].join(&b'\t');
                all[a] = new;
            }
            *bytes = all.concat();
        }
        _ => {
            // Unfinished or empty last lines.
            let tail = dice.one_of(&[
                &b"\n"[..],
                b"P",
                b"P\t",
                b"P\t0",
                b"R",
                b"\r\n",
                b"\n\n",
                b"R\tskip\t0\t0",
            ]);
            bytes.extend_from_slice(tail);
        }
    }
}

/// A sheet whose length is near the most that a sheet may have.
fn long_sheet(dice: &mut Dice) -> Vec<u8> {
    let want = SHEET_BYTES + dice.between(0, 6) - 3;
    let rows = dice.one_of(&[0, 1, 3, 1023, 1024, 1024, 1030]);
    let procedures = dice.one_of(&[0, 1, 63, 64, 70]);
    let mut table = Table::default();
    for _ in 0..rows {
        table.push(0, 0, 0);
    }
    table.roots = vec![0; procedures];
    let mut bytes = spell(&table);
    let filler = dice.one_of(&[
        &b"P\t0\n"[..],
        b"R\tskip\t0\t0\n",
        b"\n",
        b"R\tfinish\t9999\t9999\n",
        b"xxxxxxxxxxxxxxxxxxxxxxxxxxxxxxxxxxxxxxx",
    ]);
    while bytes.len() + filler.len() <= want {
        bytes.extend_from_slice(filler);
    }
    while bytes.len() < want {
        bytes.push(b'\n');
    }
    bytes
}

/// Sizes at the ceilings: rows 1,023 to 1,026 or procedures 63 to 66.
fn at_the_ceilings(dice: &mut Dice) -> Table {
    match dice.below(3) {
        0 => {
            let rows = dice.between(ROWS - 1, ROWS + 2);
            let procedures = dice.between(1, 3);
            exactly(dice, rows, procedures)
        }
        1 => {
            let procedures = dice.between(PROCEDURES - 1, PROCEDURES + 2);
            let rows = procedures + dice.below(9);
            exactly(dice, rows, procedures)
        }
        _ => {
            let rows = dice.between(ROWS - 1, ROWS + 2);
            let procedures = dice.between(PROCEDURES - 1, PROCEDURES + 2);
            exactly(dice, rows, procedures)
        }
    }
}

/// A sheet, valid or not.
pub fn sheet(dice: &mut Dice) -> Vec<u8> {
    match dice.weighted(&[38, 28, 24, 4, 3, 3]) {
        0 => spell(&recipe(dice)),
        1 => {
            let mut table = recipe(dice);
            spoil(dice, &mut table);
            if dice.chance(15) && table.rows() > 0 && !table.roots.is_empty() {
                spoil(dice, &mut table);
            }
            spell(&table)
        }
        2 => {
            let mut bytes = spell(&recipe(dice));
            for _ in 0..dice.one_of(&[1, 1, 1, 2, 3]) {
                scratch(dice, &mut bytes);
            }
            bytes
        }
        3 => {
            let table = at_the_ceilings(dice);
            let mut bytes = spell(&table);
            if dice.chance(25) {
                scratch(dice, &mut bytes);
            }
            bytes
        }
        4 => long_sheet(dice),
        _ => {
            let few = [
                &b""[..],
                b"\n",
                b"\0",
                b"R\tskip\t0\t0\n",
                b"P\t0\n",
                b"R\tskip\t0\t0\nP\t0",
                b"R\tskip\t0\t0\nP\t0\n\n",
                b"P\t0\nR\tskip\t0\t0\n",
                b"R\tskip\t0\t0\nP\t0\nR\tskip\t0\t0\n",
                b"R\tstep\t64\t0\nP\t0\n",
                b"R\tstep\t63\t0\nP\t0\n",
                b"\xef\xbb\xbfR\tskip\t0\t0\nP\t0\n",
            ];
            if dice.chance(70) {
                dice.one_of(&few).to_vec()
            } else {
                (0..dice.below(40))
                    .map(|_| dice.one_of(b"RP\t\n0123skipeq"))
                    .collect()
            }
        }
    }
}

/// A table for the plain slices, valid or not: also kinds above 6, numbers
/// that no sheet can spell, too many rows, and slices of unequal length.
pub fn table(dice: &mut Dice) -> Table {
    let mut table = recipe(dice);
    match dice.weighted(&[35, 30, 12, 8, 10, 5]) {
        0 => {}
        1 => {
            spoil(dice, &mut table);
        }
        2 => {
            for _ in 0..dice.between(1, 3) {
                let row = dice.below(table.rows());
                table.kinds[row] = dice.one_of(&[7, 7, 8, 64, 128, 255]);
            }
            if dice.chance(50) {
                let row = dice.below(table.rows());
                table.xs[row] = 65_535;
            }
        }
        3 => {
            let wild = dice.one_of(&[1024, 1025, 32_768, 65_535, 256, 257]);
            let row = dice.below(table.rows());
            let p = dice.below(table.roots.len());
            match dice.below(3) {
                0 => table.xs[row] = wild,
                1 => table.ys[row] = wild,
                _ => table.roots[p] = wild,
            }
        }
        4 => {
            let short = dice.one_of(&[0, 1, table.rows() - 1]);
            match dice.below(6) {
                0 => table.kinds.truncate(short),
                1 => table.xs.truncate(short),
                2 => table.ys.truncate(short),
                3 => table.kinds.push(0),
                4 => table.xs.push(0),
                _ => table.ys.push(0),
            }
        }
        _ => table = at_the_ceilings(dice),
    }
    table
}

/// A number that a field of a sheet holds, of each length as often.
fn fitting(dice: &mut Dice) -> u16 {
    let (low, high) = dice.one_of(&[(0, 9), (10, 99), (100, 999), (1000, 9999)]);
    match dice.below(4) {
        0 => low,
        1 => high,
        _ => dice.between(low as usize, high as usize) as u16,
    }
}

/// A table to be written, writable or not. Its operands are of every length,
/// whatever their kinds allow; it may be empty, too large, uneven, and have
/// unknown kinds and numbers that no field holds, several of them together.
pub fn to_write(dice: &mut Dice) -> Table {
    let size = |dice: &mut Dice, most: usize| match dice.weighted(&[10, 50, 25, 5, 5, 5]) {
        0 => 0,
        1 => dice.between(1, 6),
        2 => dice.between(1, most.min(60)),
        3 => most - 1,
        4 => most,
        _ => most + dice.one_of(&[0, 0, 0, 0, 1, 2]),
    };
    let rows = size(dice, ROWS);
    let longest = dice.chance(20);
    let mut table = Table::default();
    for _ in 0..rows {
        let (x, y) = (fitting(dice), fitting(dice));
        if longest {
            table.push(5, LONGEST_NUMBER.into(), LONGEST_NUMBER.into());
        } else {
            table.push(dice.below(7) as u8, x.into(), y.into());
        }
    }
    table.roots = (0..size(dice, PROCEDURES)).map(|_| fitting(dice)).collect();
    if dice.chance(40) {
        for _ in 0..dice.between(1, 4) {
            let long = dice.one_of(&[10_000, 10_000, 10_001, 16_384, 32_768, 65_535]);
            let held = match dice.below(4) {
                0 => &mut table.xs,
                1 => &mut table.ys,
                _ => &mut table.roots,
            };
            if !held.is_empty() {
                let at = dice.below(held.len());
                held[at] = long;
            }
        }
    }
    if rows > 0 && dice.chance(15) {
        for _ in 0..dice.between(1, 3) {
            table.kinds[dice.below(rows)] = dice.one_of(&[7, 7, 8, 64, 128, 255]);
        }
    }
    if dice.chance(8) {
        match dice.below(6) {
            0 => table.kinds.push(0),
            1 => table.xs.push(0),
            2 => table.ys.push(0),
            3 => drop(table.kinds.pop()),
            4 => drop(table.xs.pop()),
            _ => drop(table.ys.pop()),
        }
    }
    table
}
