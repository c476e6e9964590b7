//! The recipe table and its judge.

use crate::{LABELS, LONGEST_NUMBER, PROCEDURES, ROWS};

/// Kinds, x and y of the rows, and the roots of the procedures.
#[derive(Clone, Debug, PartialEq, Eq, Default)]
pub struct Table {
    pub kinds: Vec<u8>,
    pub xs: Vec<u16>,
    pub ys: Vec<u16>,
    pub roots: Vec<u16>,
}

/// A row as a record, as panel.h lays it out.
#[repr(C)]
#[derive(Clone, Copy, Debug, PartialEq, Eq)]
pub struct Row {
    pub kind: u8,
    pub x: u16,
    pub y: u16,
}

/// A refusal: its number and its place.
#[derive(Clone, Copy, Debug, PartialEq, Eq)]
pub struct Refusal {
    pub number: u32,
    pub place: u32,
}

pub fn refusal(number: u32, place: usize) -> Refusal {
    Refusal {
        number,
        place: place as u32,
    }
}

impl Table {
    pub fn push(&mut self, kind: u8, x: usize, y: usize) -> usize {
        self.kinds.push(kind);
        self.xs.push(x as u16);
        self.ys.push(y as u16);
        self.kinds.len() - 1
    }

    pub fn rows(&self) -> usize {
        self.kinds.len()
    }

    /// The rows as records; a table of uneven slices has none.
    pub fn records(&self) -> Option<Vec<Row>> {
        if self.xs.len() != self.rows() || self.ys.len() != self.rows() {
            return None;
        }
        let record = |i| Row {
            kind: self.kinds[i],
            x: self.xs[i],
            y: self.ys[i],
        };
        Some((0..self.rows()).map(record).collect())
    }

    /// The table of these records and roots.
    pub fn of_records(rows: &[Row], roots: &[u16]) -> Table {
        Table {
            kinds: rows.iter().map(|row| row.kind).collect(),
            xs: rows.iter().map(|row| row.x).collect(),
            ys: rows.iter().map(|row| row.y).collect(),
            roots: roots.to_vec(),
        }
    }

    /// The child rows of a row whose kind and operands are in order.
    pub fn children(&self, row: usize) -> Vec<usize> {
        match self.kinds[row] {
            2 => vec![self.xs[row] as usize, self.ys[row] as usize],
            3..=5 => vec![self.xs[row] as usize],
            _ => vec![],
        }
    }
}

/// Tries the refusals 1, 3 and 15 of a table that is to be written. What its
/// kind does with an operand has no say here.
pub fn writable(table: &Table) -> Result<(), Refusal> {
    let rows = table.rows();
    let even = table.xs.len() == rows && table.ys.len() == rows;
    if !even || rows > ROWS || table.roots.len() > PROCEDURES {
        return Err(refusal(1, 0));
    }
    if let Some(row) = table.kinds.iter().position(|&k| k > 6) {
        return Err(refusal(3, row));
    }
    let long = |&n: &u16| n > LONGEST_NUMBER;
    let in_rows = (0..rows).find(|&r| long(&table.xs[r]) || long(&table.ys[r]));
    match in_rows.or_else(|| table.roots.iter().position(long)) {
        Some(place) => Err(refusal(15, place)),
        None => Ok(()),
    }
}

fn operands_in_order(row: usize, kind: u8, x: usize, y: usize, procedures: usize) -> bool {
    let x_in_order = match kind {
        0 => x == 0,
        1 => x < LABELS,
        2..=5 => x < row,
        _ => x < procedures,
    };
    let y_in_order = if kind == 2 { y < row } else { y == 0 };
    x_in_order && y_in_order
}

/// Tries the refusals 1 to 7 in order; `words` is the length of the lent matrix.
pub fn judge(table: &Table, words: usize) -> Result<(), Refusal> {
    let rows = table.kinds.len();
    let procedures = table.roots.len();
    let even = table.xs.len() == rows && table.ys.len() == rows;
    if !even || !(1..=ROWS).contains(&rows) || !(1..=PROCEDURES).contains(&procedures) {
        return Err(refusal(1, 0));
    }
    if words < LABELS {
        return Err(refusal(2, 0));
    }
    if let Some(row) = table.kinds.iter().position(|&k| k > 6) {
        return Err(refusal(3, row));
    }
    let out_of_order = |&r: &usize| {
        !operands_in_order(
            r,
            table.kinds[r],
            table.xs[r] as usize,
            table.ys[r] as usize,
            procedures,
        )
    };
    if let Some(row) = (0..rows).find(out_of_order) {
        return Err(refusal(4, row));
    }
    if let Some(p) = table.roots.iter().position(|&r| r as usize >= rows) {
        return Err(refusal(5, p));
    }
    let mut users = vec![0usize; rows];
    for row in 0..rows {
        for child in table.children(row) {
            users[child] += 1;
        }
    }
    for &root in &table.roots {
        users[root as usize] += 1;
    }
    if let Some(row) = users.iter().position(|&u| u > 1) {
        return Err(refusal(6, row));
    }
    if let Some(row) = users.iter().position(|&u| u == 0) {
        return Err(refusal(7, row));
    }
    Ok(())
}
