//! The same work in straightforward, optimised Rust: label sets as 64-bit
//! numbers, arrays on the stack, all rows in every round, a reader that goes
//! over the sheet once, and writers straight into the lent bytes.
//!
//! It is the measure for the library's speed, and the tests use it as one more
//! version to compare.

use second::panel::Panel;
use second::table::Row;

const ROWS: usize = 1024;
const PROCEDURES: usize = 64;
const LABELS: usize = 64;
const SHEET_BYTES: usize = 65_536;
const LONGEST_NUMBER: u16 = 9_999;

pub struct Straight;

fn refuse(number: u64, place: usize) -> u64 {
    (number << 32) | place as u64
}

fn judge(kinds: &[u8], xs: &[u16], ys: &[u16], roots: &[u16], words: usize) -> Result<(), u64> {
    let n = kinds.len();
    let p = roots.len();
    if n == 0 || n > ROWS || p == 0 || p > PROCEDURES || xs.len() != n || ys.len() != n {
        return Err(refuse(1, 0));
    }
    if words < LABELS {
        return Err(refuse(2, 0));
    }
    for (r, &k) in kinds.iter().enumerate() {
        if k > 6 {
            return Err(refuse(3, r));
        }
    }
    for r in 0..n {
        let x = xs[r] as usize;
        let y = ys[r] as usize;
        let good = match kinds[r] {
            0 => x == 0 && y == 0,
            1 => x < LABELS && y == 0,
            2 => x < r && y < r,
            3..=5 => x < r && y == 0,
            _ => x < p && y == 0,
        };
        if !good {
            return Err(refuse(4, r));
        }
    }
    for (i, &root) in roots.iter().enumerate() {
        if root as usize >= n {
            return Err(refuse(5, i));
        }
    }
    let mut used = [0u8; ROWS];
    for r in 0..n {
        match kinds[r] {
            2 => {
                let x = xs[r] as usize;
                used[x] = used[x].saturating_add(1);
                let y = ys[r] as usize;
                used[y] = used[y].saturating_add(1);
            }
            3..=5 => {
                let x = xs[r] as usize;
                used[x] = used[x].saturating_add(1);
            }
            _ => {}
        }
    }
    for &root in roots {
        let r = root as usize;
        used[r] = used[r].saturating_add(1);
    }
    if let Some(r) = used[..n].iter().position(|&u| u > 1) {
        return Err(refuse(6, r));
    }
    if let Some(r) = used[..n].iter().position(|&u| u == 0) {
        return Err(refuse(7, r));
    }
    Ok(())
}

fn cross(m: &mut [u64; LABELS], a: u64, b: u64) {
    if a == 0 || b == 0 {
        return;
    }
    let mut left = a;
    while left != 0 {
        m[left.trailing_zeros() as usize] |= b;
        left &= left - 1;
    }
    let mut left = b;
    while left != 0 {
        m[left.trailing_zeros() as usize] |= a;
        left &= left - 1;
    }
}

/// Which procedure each row of an admitted table belongs to.
fn owners(kinds: &[u8], xs: &[u16], ys: &[u16], roots: &[u16]) -> [u8; ROWS] {
    let mut owner = [0u8; ROWS];
    for (p, &root) in roots.iter().enumerate() {
        owner[root as usize] = p as u8;
    }
    for r in (0..kinds.len()).rev() {
        match kinds[r] {
            2 => {
                owner[xs[r] as usize] = owner[r];
                owner[ys[r] as usize] = owner[r];
            }
            3..=5 => owner[xs[r] as usize] = owner[r],
            _ => {}
        }
    }
    owner
}

/// What a round holds for the procedures.
struct Held {
    m: [[u64; LABELS]; PROCEDURES],
    o: [u64; PROCEDURES],
    l: [u64; PROCEDURES],
}

impl Held {
    fn empty() -> Self {
        Held {
            m: [[0; LABELS]; PROCEDURES],
            o: [0; PROCEDURES],
            l: [0; PROCEDURES],
        }
    }

    fn same(&self, other: &Held, procedures: usize) -> bool {
        self.l[..procedures] == other.l[..procedures]
            && self.o[..procedures] == other.o[..procedures]
            && self.m[..procedures] == other.m[..procedures]
    }
}

/// Main's matrix and the rounds of an admitted table.
fn settle(
    kinds: &[u8],
    xs: &[u16],
    ys: &[u16],
    roots: &[u16],
    owner: &[u8; ROWS],
) -> ([u64; LABELS], usize) {
    let n = kinds.len();
    let procedures = roots.len();
    let (xs, ys) = (&xs[..n], &ys[..n]);
    let mut one = Held::empty();
    let mut other = Held::empty();
    let (mut held, mut next) = (&mut one, &mut other);
    // Every row writes its own O and L before a later row reads them.
    let mut o = [0u64; ROWS];
    let mut l = [0u64; ROWS];
    let mut rounds = 0;
    loop {
        for m in &mut next.m[..procedures] {
            m.fill(0);
        }
        for r in 0..n {
            let x = xs[r] as usize;
            let m = &mut next.m[owner[r] as usize % PROCEDURES];
            match kinds[r] {
                0 => {
                    o[r] = 0;
                    l[r] = 0;
                }
                1 => {
                    o[r] = 0;
                    l[r] = 1 << x;
                }
                2 => {
                    let y = ys[r] as usize;
                    cross(m, o[x], l[y]);
                    o[r] = o[x] | o[y];
                    l[r] = l[x] | l[y];
                }
                3 => {
                    cross(m, o[x], l[x]);
                    o[r] = o[x];
                    l[r] = l[x];
                }
                4 => {
                    o[r] = l[x];
                    l[r] = l[x];
                }
                5 => {
                    o[r] = 0;
                    l[r] = l[x];
                }
                _ => {
                    for (mine, theirs) in m.iter_mut().zip(&held.m[x]) {
                        *mine |= *theirs;
                    }
                    o[r] = held.o[x];
                    l[r] = held.l[x];
                }
            }
        }
        for (p, &root) in roots.iter().enumerate() {
            next.o[p] = o[root as usize];
            next.l[p] = l[root as usize];
        }
        if next.same(held, procedures) {
            return (held.m[0], rounds);
        }
        std::mem::swap(&mut held, &mut next);
        rounds += 1;
    }
}

/// True if some procedure that main reaches by calls, main included, reaches itself by calls: reachable sets as 64-bit
/// numbers. Main is in its own set if it reaches itself, and needs no case of its own.
fn wide(kinds: &[u8], xs: &[u16], procedures: usize, owner: &[u8; ROWS]) -> bool {
    let mut reach = [0u64; PROCEDURES];
    for r in 0..kinds.len() {
        if kinds[r] == 6 {
            reach[owner[r] as usize] |= 1 << xs[r];
        }
    }
    for via in 0..procedures {
        for p in 0..procedures {
            if reach[p] >> via & 1 == 1 {
                reach[p] |= reach[via];
            }
        }
    }
    (0..procedures).any(|p| (reach[0] & reach[p]) >> p & 1 == 1)
}

fn digits(n: usize) -> usize {
    match n {
        0..=9 => 1,
        10..=99 => 2,
        100..=999 => 3,
        _ => 4,
    }
}

struct Writer<'a> {
    bytes: &'a mut [u8],
    at: usize,
}

impl Writer<'_> {
    fn text(&mut self, text: &[u8]) {
        self.bytes[self.at..self.at + text.len()].copy_from_slice(text);
        self.at += text.len();
    }

    fn number(&mut self, n: usize, end: u8) {
        let d = digits(n);
        let mut rest = n;
        for i in (0..d).rev() {
            self.bytes[self.at + i] = b'0' + (rest % 10) as u8;
            rest /= 10;
        }
        self.bytes[self.at + d] = end;
        self.at += d + 1;
    }
}

fn parsed_number(bytes: &[u8], at: &mut usize, end: u8) -> Option<u16> {
    let start = *at;
    let mut n = 0u16;
    while *at < bytes.len() && bytes[*at].is_ascii_digit() {
        if *at - start == 4 {
            return None;
        }
        n = n * 10 + u16::from(bytes[*at] - b'0');
        *at += 1;
    }
    let long = *at - start;
    if long == 0 || (long > 1 && bytes[start] == b'0') || *at >= bytes.len() || bytes[*at] != end {
        return None;
    }
    *at += 1;
    Some(n)
}

/// The keywords of the kinds, each with the tab behind it.
const KEYWORDS: [&[u8]; 7] = [
    b"skip\t",
    b"step\t",
    b"seq\t",
    b"loop\t",
    b"async\t",
    b"finish\t",
    b"call\t",
];

fn parsed_kind(bytes: &[u8], at: &mut usize) -> Option<u8> {
    for (k, keyword) in KEYWORDS.iter().enumerate() {
        if bytes[*at..].starts_with(keyword) {
            *at += keyword.len();
            return Some(k as u8);
        }
    }
    None
}

/// Whether a table can be written, without regard to the room for its sheet.
fn writable(kinds: &[u8], xs: &[u16], ys: &[u16], roots: &[u16]) -> Result<(), u64> {
    let n = kinds.len();
    if n > ROWS || roots.len() > PROCEDURES || xs.len() != n || ys.len() != n {
        return Err(refuse(1, 0));
    }
    if let Some(r) = kinds.iter().position(|&k| k > 6) {
        return Err(refuse(3, r));
    }
    let long = |&n: &u16| n > LONGEST_NUMBER;
    if let Some(r) = xs.iter().zip(ys).position(|(x, y)| long(x) || long(y)) {
        return Err(refuse(15, r));
    }
    match roots.iter().position(long) {
        Some(p) => Err(refuse(15, p)),
        None => Ok(()),
    }
}

/// Records as three slices.
struct Columns {
    kinds: Vec<u8>,
    xs: Vec<u16>,
    ys: Vec<u16>,
}

fn columns(rows: &[Row]) -> Columns {
    Columns {
        kinds: rows.iter().map(|row| row.kind).collect(),
        xs: rows.iter().map(|row| row.x).collect(),
        ys: rows.iter().map(|row| row.y).collect(),
    }
}

impl Panel for Straight {
    fn analyse(
        &self,
        kinds: &[u8],
        xs: &[u16],
        ys: &[u16],
        roots: &[u16],
        matrix: &mut [u64],
    ) -> u64 {
        if let Err(reply) = judge(kinds, xs, ys, roots, matrix.len()) {
            return reply;
        }
        let owner = owners(kinds, xs, ys, roots);
        let (m, rounds) = settle(kinds, xs, ys, roots, &owner);
        matrix[..LABELS].copy_from_slice(&m);
        rounds as u64
    }

    fn read_sheet(
        &self,
        bytes: &[u8],
        kinds: &mut [u8],
        xs: &mut [u16],
        ys: &mut [u16],
        roots: &mut [u16],
    ) -> u64 {
        if bytes.len() > SHEET_BYTES {
            return refuse(11, 0);
        }
        let room = kinds.len().min(xs.len()).min(ys.len()).min(ROWS);
        let room_roots = roots.len().min(PROCEDURES);
        let mut all_kinds = [0u8; ROWS];
        let mut all_xs = [0u16; ROWS];
        let mut all_ys = [0u16; ROWS];
        let mut all_roots = [0u16; PROCEDURES];
        let mut n = 0;
        let mut p = 0;
        let mut at = 0;
        while at < bytes.len() {
            let place = n + p;
            if bytes[at..].starts_with(b"R\t") && p == 0 {
                at += 2;
                let Some(k) = parsed_kind(bytes, &mut at) else {
                    return refuse(12, place);
                };
                let Some(x) = parsed_number(bytes, &mut at, b'\t') else {
                    return refuse(12, place);
                };
                let Some(y) = parsed_number(bytes, &mut at, b'\n') else {
                    return refuse(12, place);
                };
                if n == room {
                    return refuse(13, place);
                }
                all_kinds[n] = k;
                all_xs[n] = x;
                all_ys[n] = y;
                n += 1;
            } else if bytes[at..].starts_with(b"P\t") {
                at += 2;
                let Some(root) = parsed_number(bytes, &mut at, b'\n') else {
                    return refuse(12, place);
                };
                if p == room_roots {
                    return refuse(13, place);
                }
                all_roots[p] = root;
                p += 1;
            } else {
                return refuse(12, place);
            }
        }
        kinds[..n].copy_from_slice(&all_kinds[..n]);
        xs[..n].copy_from_slice(&all_xs[..n]);
        ys[..n].copy_from_slice(&all_ys[..n]);
        roots[..p].copy_from_slice(&all_roots[..p]);
        (n + 65_536 * p) as u64
    }

    fn list_pairs(
        &self,
        kinds: &[u8],
        xs: &[u16],
        ys: &[u16],
        roots: &[u16],
        matrix: &mut [u64],
        bytes: &mut [u8],
    ) -> u64 {
        if let Err(reply) = judge(kinds, xs, ys, roots, matrix.len()) {
            return reply;
        }
        let owner = owners(kinds, xs, ys, roots);
        let (m, rounds) = settle(kinds, xs, ys, roots, &owner);
        let wide = wide(kinds, xs, roots.len(), &owner);
        // Labels below 10 take one byte, the others two; a tab and a newline each.
        let mut count = 0;
        let mut length = 0;
        for (i, &word) in m.iter().enumerate() {
            let above = word & (u64::MAX << i);
            let ones = above.count_ones() as usize;
            let long = (above >> 10).count_ones() as usize;
            count += ones;
            length += ones * (digits(i) + 3) + long;
        }
        length += digits(count) + digits(rounds) + if wide { 20 } else { 21 };
        if bytes.len() < length {
            return refuse(14, 0);
        }
        let mut out = Writer { bytes, at: 0 };
        out.text(b"pairs\t");
        out.number(count, b'\t');
        out.text(b"rounds\t");
        out.number(rounds, b'\t');
        out.text(if wide { b"wide\n" } else { b"exact\n" });
        for (i, &word) in m.iter().enumerate() {
            let mut left = word & (u64::MAX << i);
            while left != 0 {
                out.number(i, b'\t');
                out.number(left.trailing_zeros() as usize, b'\n');
                left &= left - 1;
            }
        }
        debug_assert_eq!(out.at, length);
        matrix[..LABELS].copy_from_slice(&m);
        length as u64
    }

    fn analyse_rows(&self, rows: &[Row], roots: &[u16], matrix: &mut [u64]) -> u64 {
        let Columns { kinds, xs, ys } = columns(rows);
        self.analyse(&kinds, &xs, &ys, roots, matrix)
    }

    fn read_rows(&self, bytes: &[u8], rows: &mut [Row], roots: &mut [u16]) -> u64 {
        let Columns {
            mut kinds,
            mut xs,
            mut ys,
        } = columns(rows);
        let reply = self.read_sheet(bytes, &mut kinds, &mut xs, &mut ys, roots);
        for (i, row) in rows.iter_mut().enumerate() {
            *row = Row {
                kind: kinds[i],
                x: xs[i],
                y: ys[i],
            };
        }
        reply
    }

    fn list_rows(&self, rows: &[Row], roots: &[u16], matrix: &mut [u64], bytes: &mut [u8]) -> u64 {
        let Columns { kinds, xs, ys } = columns(rows);
        self.list_pairs(&kinds, &xs, &ys, roots, matrix, bytes)
    }

    fn write_sheet(
        &self,
        kinds: &[u8],
        xs: &[u16],
        ys: &[u16],
        roots: &[u16],
        bytes: &mut [u8],
    ) -> u64 {
        if let Err(reply) = writable(kinds, xs, ys, roots) {
            return reply;
        }
        let rows = || kinds.iter().zip(xs.iter().zip(ys));
        // Beside the keyword and its tab a row has four bytes and its digits, a procedure three.
        let mut length = 0;
        for (&kind, (&x, &y)) in rows() {
            let keyword = KEYWORDS[kind as usize].len();
            length += keyword + digits(x as usize) + digits(y as usize) + 4;
        }
        for &root in roots {
            length += digits(root as usize) + 3;
        }
        if bytes.len() < length {
            return refuse(14, 0);
        }
        let mut out = Writer { bytes, at: 0 };
        for (&kind, (&x, &y)) in rows() {
            out.text(b"R\t");
            out.text(KEYWORDS[kind as usize]);
            out.number(x as usize, b'\t');
            out.number(y as usize, b'\n');
        }
        for &root in roots {
            out.text(b"P\t");
            out.number(root as usize, b'\n');
        }
        debug_assert_eq!(out.at, length);
        length as u64
    }

    fn write_rows(&self, rows: &[Row], roots: &[u16], bytes: &mut [u8]) -> u64 {
        let Columns { kinds, xs, ys } = columns(rows);
        self.write_sheet(&kinds, &xs, &ys, roots, bytes)
    }
}
