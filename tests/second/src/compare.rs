//! Compares the second program with the entries of the panel, storage included:
//! each entry on plain slices, and the same one on records.
//!
//! Everything lent is filled with a pattern first. After a refusal the pattern
//! must stand everywhere, after a success everywhere beyond what is promised.

use crate::dice::Dice;
use crate::panel::{refused, shown, Panel};
use crate::table::{judge, refusal, Refusal, Row, Table};
use crate::{gen, sheet, work_out, Answer};
use crate::{LABELS, LISTING_BYTES, PROCEDURES, ROWS, SHEET_BYTES, WRITTEN_BYTES};

/// A difference, and what it was found on.
pub struct Fault {
    pub what: String,
    pub input: Vec<u8>,
}

fn pattern_u8(n: usize, dice: &mut Dice) -> Vec<u8> {
    let start = dice.draw() as u8;
    (0..n).map(|i| start.wrapping_add((i * 7) as u8)).collect()
}

fn pattern_u16(n: usize, dice: &mut Dice) -> Vec<u16> {
    let start = dice.draw() as u16;
    (0..n)
        .map(|i| start.wrapping_add((i * 259) as u16))
        .collect()
}

fn pattern_u64(n: usize, dice: &mut Dice) -> Vec<u64> {
    (0..n).map(|_| dice.draw()).collect()
}

fn pattern_rows(n: usize, dice: &mut Dice) -> Vec<Row> {
    let (kinds, xs, ys) = (
        pattern_u8(n, dice),
        pattern_u16(n, dice),
        pattern_u16(n, dice),
    );
    let record = |i| Row {
        kind: kinds[i],
        x: xs[i],
        y: ys[i],
    };
    (0..n).map(record).collect()
}

fn same_reply(entry: &str, got: u64, want: u64) -> Result<(), String> {
    if got == want {
        Ok(())
    } else {
        Err(format!(
            "{entry}: reply {}, expected {}",
            shown(got),
            shown(want)
        ))
    }
}

fn same<T: PartialEq + std::fmt::Debug>(
    entry: &str,
    what: &str,
    got: &[T],
    want: &[T],
) -> Result<(), String> {
    if got == want {
        return Ok(());
    }
    let at = (0..got.len().max(want.len()))
        .find(|&i| got.get(i) != want.get(i))
        .unwrap();
    Err(format!(
        "{entry}: {what} at {at} is {:?}, expected {:?}",
        got.get(at),
        want.get(at)
    ))
}

/// What a success must leave in a lent slice: the new values, then what was there.
fn laid_over<T: Copy>(new: &[T], before: &[T]) -> Vec<T> {
    let mut all = before.to_vec();
    all[..new.len()].copy_from_slice(new);
    all
}

/// A recipe that is lent to be read must be as it was.
fn unwritten(entry: &str, given: &Table, table: &Table) -> Result<(), String> {
    if given == table {
        Ok(())
    } else {
        Err(format!("{entry}: the recipe was written"))
    }
}

/// The reply and the table that reading must give where so much is lent.
fn readable(bytes: &[u8], rows: usize, procedures: usize) -> (u64, Table) {
    match sheet::read(bytes, rows.min(ROWS), procedures.min(PROCEDURES)) {
        Ok(table) => (
            (table.kinds.len() + 65_536 * table.roots.len()) as u64,
            table,
        ),
        Err(refusal) => (refused(refusal), Table::default()),
    }
}

/// Compares the reading of a sheet; `room` holds the lengths of kinds, xs, ys
/// and roots, and as many records are lent as the shortest of the three has.
pub fn reading(
    panel: &dyn Panel,
    dice: &mut Dice,
    bytes: &[u8],
    room: [usize; 4],
) -> Result<(), String> {
    let rows = room[0].min(room[1]).min(room[2]);
    let (reply, table) = readable(bytes, rows, room[3]);
    reading_slices(panel, dice, bytes, room, reply, &table)?;
    reading_records(panel, dice, bytes, [rows, room[3]], reply, &table)
}

fn reading_slices(
    panel: &dyn Panel,
    dice: &mut Dice,
    bytes: &[u8],
    room: [usize; 4],
    want: u64,
    table: &Table,
) -> Result<(), String> {
    let entry = format!("read_sheet with room {room:?}");
    let kinds_before = pattern_u8(room[0], dice);
    let xs_before = pattern_u16(room[1], dice);
    let ys_before = pattern_u16(room[2], dice);
    let roots_before = pattern_u16(room[3], dice);
    let mut kinds = kinds_before.clone();
    let mut xs = xs_before.clone();
    let mut ys = ys_before.clone();
    let mut roots = roots_before.clone();
    let reply = panel.read_sheet(bytes, &mut kinds, &mut xs, &mut ys, &mut roots);
    same_reply(&entry, reply, want)?;
    same(
        &entry,
        "kinds",
        &kinds,
        &laid_over(&table.kinds, &kinds_before),
    )?;
    same(&entry, "xs", &xs, &laid_over(&table.xs, &xs_before))?;
    same(&entry, "ys", &ys, &laid_over(&table.ys, &ys_before))?;
    same(
        &entry,
        "roots",
        &roots,
        &laid_over(&table.roots, &roots_before),
    )
}

fn reading_records(
    panel: &dyn Panel,
    dice: &mut Dice,
    bytes: &[u8],
    room: [usize; 2],
    want: u64,
    table: &Table,
) -> Result<(), String> {
    let entry = format!("read_rows with room {room:?}");
    let rows_before = pattern_rows(room[0], dice);
    let roots_before = pattern_u16(room[1], dice);
    let mut rows = rows_before.clone();
    let mut roots = roots_before.clone();
    let reply = panel.read_rows(bytes, &mut rows, &mut roots);
    let read = table.records().expect("a table that was read is even");
    same_reply(&entry, reply, want)?;
    same(&entry, "rows", &rows, &laid_over(&read, &rows_before))?;
    same(
        &entry,
        "roots",
        &roots,
        &laid_over(&table.roots, &roots_before),
    )
}

/// Compares the analysis; `answer` is the second program's, if the table is admitted.
pub fn analysing(
    panel: &dyn Panel,
    dice: &mut Dice,
    table: &Table,
    answer: Option<&Answer>,
    words: usize,
) -> Result<(), String> {
    let given = table.clone();
    let entry = format!("analyse with {words} words");
    analysed(&entry, dice, table, answer, words, |matrix| {
        panel.analyse(&given.kinds, &given.xs, &given.ys, &given.roots, matrix)
    })?;
    unwritten(&entry, &given, table)?;
    let Some(rows) = table.records() else {
        return Ok(());
    };
    let entry = format!("analyse_rows with {words} words");
    analysed(&entry, dice, table, answer, words, |matrix| {
        panel.analyse_rows(&rows, &given.roots, matrix)
    })?;
    unwritten(&entry, &Table::of_records(&rows, &given.roots), table)
}

fn analysed(
    entry: &str,
    dice: &mut Dice,
    table: &Table,
    answer: Option<&Answer>,
    words: usize,
    ask: impl Fn(&mut [u64]) -> u64,
) -> Result<(), String> {
    let before = pattern_u64(words, dice);
    let mut matrix = before.clone();
    let reply = ask(&mut matrix);
    match (judge(table, words), answer) {
        (Err(refusal), _) => {
            same_reply(entry, reply, refused(refusal))?;
            same(entry, "matrix", &matrix, &before)
        }
        (Ok(()), Some(answer)) => {
            same_reply(entry, reply, answer.rounds as u64)?;
            same(
                entry,
                "matrix",
                &matrix,
                &laid_over(&answer.matrix, &before),
            )
        }
        (Ok(()), None) => Err("an admitted table without an answer".to_string()),
    }
}

/// Compares the listing into `room` lent bytes.
pub fn listing(
    panel: &dyn Panel,
    dice: &mut Dice,
    table: &Table,
    answer: Option<&Answer>,
    words: usize,
    room: usize,
) -> Result<(), String> {
    let given = table.clone();
    let lent = (words, room);
    let entry = format!("list_pairs with {words} words and {room} bytes");
    listed(&entry, dice, table, answer, lent, |matrix, bytes| {
        panel.list_pairs(
            &given.kinds,
            &given.xs,
            &given.ys,
            &given.roots,
            matrix,
            bytes,
        )
    })?;
    unwritten(&entry, &given, table)?;
    let Some(rows) = table.records() else {
        return Ok(());
    };
    let entry = format!("list_rows with {words} words and {room} bytes");
    listed(&entry, dice, table, answer, lent, |matrix, bytes| {
        panel.list_rows(&rows, &given.roots, matrix, bytes)
    })?;
    unwritten(&entry, &Table::of_records(&rows, &given.roots), table)
}

fn listed(
    entry: &str,
    dice: &mut Dice,
    table: &Table,
    answer: Option<&Answer>,
    (words, room): (usize, usize),
    ask: impl Fn(&mut [u64], &mut [u8]) -> u64,
) -> Result<(), String> {
    let matrix_before = pattern_u64(words, dice);
    let bytes_before = pattern_u8(room, dice);
    let mut matrix = matrix_before.clone();
    let mut bytes = bytes_before.clone();
    let reply = ask(&mut matrix, &mut bytes);
    let fits = answer.is_some_and(|a| a.listing.len() <= room);
    let refusal = match judge(table, words) {
        Err(refusal) => Some(refusal),
        Ok(()) if !fits => Some(refusal(14, 0)),
        Ok(()) => None,
    };
    match (refusal, answer) {
        (None, Some(answer)) => {
            same_reply(entry, reply, answer.listing.len() as u64)?;
            same(
                entry,
                "matrix",
                &matrix,
                &laid_over(&answer.matrix, &matrix_before),
            )?;
            same(
                entry,
                "bytes",
                &bytes,
                &laid_over(&answer.listing, &bytes_before),
            )
        }
        (Some(refusal), _) => {
            same_reply(entry, reply, refused(refusal))?;
            same(entry, "matrix", &matrix, &matrix_before)?;
            same(entry, "bytes", &bytes, &bytes_before)
        }
        (None, None) => Err("an admitted table without an answer".to_string()),
    }
}

/// Compares the writing of a table into `room` lent bytes, and the reading of
/// what was written, which must give the table again.
pub fn writing(
    panel: &dyn Panel,
    dice: &mut Dice,
    table: &Table,
    room: usize,
) -> Result<(), String> {
    let due = sheet::write(table, room);
    let given = table.clone();
    let entry = format!("write_sheet with {room} bytes");
    wrote(&entry, dice, &due, room, |bytes| {
        panel.write_sheet(&given.kinds, &given.xs, &given.ys, &given.roots, bytes)
    })?;
    unwritten(&entry, &given, table)?;
    if let Some(rows) = table.records() {
        let entry = format!("write_rows with {room} bytes");
        wrote(&entry, dice, &due, room, |bytes| {
            panel.write_rows(&rows, &given.roots, bytes)
        })?;
        unwritten(&entry, &Table::of_records(&rows, &given.roots), table)?;
    }
    let Ok(bytes) = due else {
        return Ok(());
    };
    if sheet::read(&bytes, ROWS, PROCEDURES).as_ref() != Ok(table) {
        return Err("another table is read than was written".to_string());
    }
    let (rows, procedures) = (table.rows(), table.roots.len());
    reading(panel, dice, &bytes, [rows, rows, rows, procedures])
}

fn wrote(
    entry: &str,
    dice: &mut Dice,
    due: &Result<Vec<u8>, Refusal>,
    room: usize,
    ask: impl Fn(&mut [u8]) -> u64,
) -> Result<(), String> {
    let before = pattern_u8(room, dice);
    let mut bytes = before.clone();
    let reply = ask(&mut bytes);
    let (want, new) = match due {
        Ok(sheet) => (sheet.len() as u64, &sheet[..]),
        Err(refusal) => (refused(*refusal), &[][..]),
    };
    same_reply(entry, reply, want)?;
    same(entry, "bytes", &bytes, &laid_over(new, &before))
}

/// What was read of a sheet must be written as the same bytes.
fn written_back(
    panel: &dyn Panel,
    dice: &mut Dice,
    bytes: &[u8],
    read: &Table,
) -> Result<(), String> {
    if sheet::write(read, bytes.len()).as_deref() != Ok(bytes) {
        return Err("another sheet is written than was read".to_string());
    }
    writing(panel, dice, read, bytes.len())
}

/// Rooms for the sheet of a table: none, each length near the one that is
/// needed, as much as is ever needed, and more, up to the longest sheet's that
/// is read.
pub fn rooms(table: &Table) -> Vec<usize> {
    let needed = sheet::write(table, usize::MAX).map_or(16, |bytes| bytes.len());
    let near = needed.saturating_sub(2)..=needed + 2;
    [0].into_iter()
        .chain(near)
        .chain([WRITTEN_BYTES, WRITTEN_BYTES + 40, SHEET_BYTES])
        .collect()
}

/// The second program's answer, if the table is admitted.
pub fn answer(table: &Table) -> Option<Answer> {
    judge(table, LABELS).ok().map(|()| work_out(table))
}

/// Compares analysis, listing and writing of a table with several lengths of what is lent.
pub fn table(panel: &dyn Panel, dice: &mut Dice, table: &Table) -> Result<(), String> {
    let answer = answer(table);
    let answer = answer.as_ref();
    let words = |dice: &mut Dice| match dice.below(10) {
        0 => dice.one_of(&[0, 1, 32, 63]),
        1..=4 => LABELS,
        _ => dice.one_of(&[65, 66, 100, 128]),
    };
    let n = words(dice);
    analysing(panel, dice, table, answer, n)?;
    let length = answer.map_or(24, |a| a.listing.len());
    let room = match dice.below(8) {
        0 => 0,
        1 => length - 1,
        2 => dice.below(length),
        3 | 4 => length,
        5 => length + dice.between(1, 40),
        _ => LISTING_BYTES,
    };
    let n = words(dice);
    listing(panel, dice, table, answer, n, room)?;
    let room = dice.one_of(&rooms(table));
    writing(panel, dice, table, room)
}

/// Compares the reading of a sheet, and what follows where it is read.
pub fn sheet(panel: &dyn Panel, dice: &mut Dice, bytes: &[u8]) -> Result<(), String> {
    reading(panel, dice, bytes, [ROWS, ROWS, ROWS, PROCEDURES])?;
    if dice.chance(50) {
        let lines = bytes.split(|&b| b == b'\n').count().min(ROWS + 4);
        let rows = |dice: &mut Dice| match dice.below(4) {
            0 => dice.between(0, lines),
            1 => lines.saturating_sub(dice.between(1, 3)),
            _ => dice.one_of(&[ROWS, ROWS + 1, ROWS + 40, lines]),
        };
        let procedures = dice.one_of(&[0, 1, 2, 5, 63, 64, 65, 90]);
        let room = [rows(dice), rows(dice), rows(dice), procedures];
        reading(panel, dice, bytes, room)?;
    }
    match sheet::read(bytes, ROWS, PROCEDURES) {
        Ok(read) => {
            written_back(panel, dice, bytes, &read)?;
            table(panel, dice, &read)
        }
        Err(_) => Ok(()),
    }
}

/// One generated comparison.
pub fn one(panel: &dyn Panel, seed: u64) -> Result<(), Fault> {
    let mut dice = Dice::new(seed);
    let plain = match dice.weighted(&[55, 30, 15]) {
        0 => {
            let bytes = gen::sheet(&mut dice);
            return sheet(panel, &mut dice, &bytes).map_err(|what| Fault { what, input: bytes });
        }
        1 => gen::table(&mut dice),
        _ => gen::to_write(&mut dice),
    };
    table(panel, &mut dice, &plain).map_err(|what| Fault {
        what,
        input: shown_as_sheet(&plain),
    })
}

/// A table as its sheet, or by its fields where no sheet stands for it.
fn shown_as_sheet(table: &Table) -> Vec<u8> {
    sheet::write(table, WRITTEN_BYTES).unwrap_or_else(|_| format!("{table:?}\n").into_bytes())
}

/// The seed of the i-th case of a run.
pub fn seed_of(run: u64, i: u64) -> u64 {
    run.wrapping_mul(1_000_000_007).wrapping_add(i)
}
