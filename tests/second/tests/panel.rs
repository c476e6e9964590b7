//! The panel's entries with storage of every length: what must stay unchanged
//! is unchanged, and the refusals 2, 13, 14 and 15 are met at the very edge. Runs
//! on the Rust version of the benchmark, and on the library where it is linked.

mod common;

use common::note_if_no_library;
use common::straight::Straight;
use second::calls::{has_an_unreached_self_caller, main_reaches_a_self_caller};
use second::dice::Dice;
use second::fenced::Fenced;
use second::panel::Panel;
use second::samples::*;
use second::table::{Row, Table};
use second::{compare, sheet, work_out, LABELS, LISTING_BYTES, PROCEDURES, ROWS};

fn on_all(check: impl Fn(&dyn Panel, &mut Dice) -> Result<(), String>) {
    common::on_all("lent storage", check);
}

fn reply(number: u64, value: u64) -> u64 {
    (number << 32) + value
}

#[test]
fn which_versions_are_at_hand() {
    note_if_no_library("the checks of lent storage");
}

#[test]
fn the_numbers_of_the_whole_case() {
    on_all(|panel, _| {
        let table = whole_case();
        let bytes = sheet::spell(&table);
        let (mut kinds, mut xs, mut ys, mut roots) = ([9u8; 12], [9u16; 11], [9u16; 10], [9u16; 3]);
        let read = panel.read_sheet(&bytes, &mut kinds, &mut xs, &mut ys, &mut roots);
        assert_eq!(read, reply(0, 10 + 65_536));
        assert_eq!(kinds, [1, 4, 1, 4, 1, 2, 5, 1, 2, 2, 9, 9]);
        assert_eq!(xs, [0, 0, 1, 2, 2, 3, 5, 3, 6, 1, 9]);
        assert_eq!(ys, [0, 0, 0, 0, 0, 4, 0, 0, 7, 8]);
        assert_eq!(roots, [9, 9, 9]);
        let mut matrix = [u64::MAX; 66];
        let rounds = panel.analyse(&kinds[..10], &xs[..10], &ys, &roots[..1], &mut matrix);
        assert_eq!(rounds, reply(0, 1));
        assert_eq!(matrix[..4], [0b1110, 0b0101, 0b0011, 0b0001]);
        assert!(matrix[4..64].iter().all(|&w| w == 0));
        assert_eq!(matrix[64..], [u64::MAX; 2]);
        let mut matrix = [5u64; 64];
        let mut listed = [b'#'; 50];
        let length = panel.list_pairs(
            &kinds[..10],
            &xs[..10],
            &ys,
            &roots[..1],
            &mut matrix,
            &mut listed,
        );
        let text = b"pairs\t4\trounds\t1\texact\n0\t1\n0\t2\n0\t3\n1\t2\n";
        assert_eq!(length, reply(0, text.len() as u64));
        assert_eq!(&listed[..text.len()], text);
        assert!(listed[text.len()..].iter().all(|&b| b == b'#'));
        assert_eq!(matrix[..4], [0b1110, 0b0101, 0b0011, 0b0001]);
        Ok(())
    });
}

#[test]
fn the_numbers_of_the_whole_case_on_records() {
    on_all(|panel, _| {
        let bytes = sheet::spell(&whole_case());
        let blank = Row {
            kind: 9,
            x: 8,
            y: 7,
        };
        let (mut rows, mut roots) = ([blank; 12], [9u16; 3]);
        let read = panel.read_rows(&bytes, &mut rows, &mut roots);
        assert_eq!(read, reply(0, 10 + 65_536));
        assert_eq!(rows[..10], whole_case().records().unwrap());
        assert_eq!(rows[10..], [blank; 2]);
        assert_eq!(roots, [9, 9, 9]);
        let mut matrix = [u64::MAX; 66];
        let rounds = panel.analyse_rows(&rows[..10], &roots[..1], &mut matrix);
        assert_eq!(rounds, reply(0, 1));
        assert_eq!(matrix[..4], [0b1110, 0b0101, 0b0011, 0b0001]);
        assert!(matrix[4..64].iter().all(|&w| w == 0));
        assert_eq!(matrix[64..], [u64::MAX; 2]);
        let mut listed = [b'#'; 50];
        let length = panel.list_rows(&rows[..10], &roots[..1], &mut matrix, &mut listed);
        let text = b"pairs\t4\trounds\t1\texact\n0\t1\n0\t2\n0\t3\n1\t2\n";
        assert_eq!(length, reply(0, text.len() as u64));
        assert_eq!(&listed[..text.len()], text);
        assert!(listed[text.len()..].iter().all(|&b| b == b'#'));
        // More records than a table can have, with the recipe at their front.
        let mut many = vec![blank; 3000];
        many[..10].copy_from_slice(&rows[..10]);
        let before = matrix;
        assert_eq!(
            panel.analyse_rows(&many, &roots[..1], &mut matrix),
            reply(1, 0)
        );
        assert_eq!(
            panel.list_rows(&many, &roots[..1], &mut matrix, &mut listed),
            reply(1, 0)
        );
        assert_eq!(matrix, before);
        // A refused sheet leaves all records and roots as they were.
        let before = many.clone();
        assert_eq!(
            panel.read_rows(&bytes[..bytes.len() - 1], &mut many, &mut roots),
            reply(12, 10)
        );
        assert_eq!(
            panel.read_rows(&bytes, &mut many[..9], &mut roots),
            reply(13, 9)
        );
        assert_eq!(many, before);
        assert_eq!(roots, [9, 9, 9]);
        Ok(())
    });
}

#[test]
fn the_whole_case_is_written() {
    on_all(|panel, _| {
        let table = whole_case();
        let rows = table.records().unwrap();
        let roots = &table.roots;
        let text = b"R\tstep\t0\t0\nR\tasync\t0\t0\nR\tstep\t1\t0\nR\tasync\t2\t0\nR\tstep\t2\t0\nR\tseq\t3\t4\n\
                     R\tfinish\t5\t0\nR\tstep\t3\t0\nR\tseq\t6\t7\nR\tseq\t1\t8\nP\t9\n";
        let (mut from_slices, mut from_records) = ([b'#'; 120], [b'#'; 120]);
        let length = panel.write_sheet(&table.kinds, &table.xs, &table.ys, roots, &mut from_slices);
        assert_eq!(length, reply(0, 115));
        assert_eq!(
            panel.write_rows(&rows, roots, &mut from_records),
            reply(0, 115)
        );
        assert_eq!(&from_slices[..115], text);
        assert_eq!(from_slices[115..], [b'#'; 5]);
        assert_eq!(from_records, from_slices);
        // One byte too few, a number that no field holds and an unknown kind leave the bytes as they were.
        let mut short = [b'#'; 114];
        assert_eq!(panel.write_rows(&rows, roots, &mut short), reply(14, 0));
        assert_eq!(panel.write_rows(&rows, &[10_000], &mut short), reply(15, 0));
        let mut wrong = rows.clone();
        wrong[8].y = 10_000;
        assert_eq!(
            panel.write_rows(&wrong, &[10_000], &mut short),
            reply(15, 8)
        );
        wrong[9].kind = 7;
        assert_eq!(panel.write_rows(&wrong, &[10_000], &mut short), reply(3, 9));
        assert_eq!(
            panel.write_sheet(&table.kinds, &table.xs, &table.ys[..9], roots, &mut short),
            reply(1, 0)
        );
        assert_eq!(short, [b'#'; 114]);
        // More records than a table can have, with the recipe at their front.
        let mut many = vec![rows[0]; 3000];
        many[..10].copy_from_slice(&rows);
        assert_eq!(
            panel.write_rows(&many, roots, &mut from_records),
            reply(1, 0)
        );
        assert_eq!(from_records, from_slices);
        // Nothing at all is written into no bytes.
        assert_eq!(panel.write_sheet(&[], &[], &[], &[], &mut []), reply(0, 0));
        assert_eq!(panel.write_rows(&[], &[], &mut []), reply(0, 0));
        Ok(())
    });
}

#[test]
fn sheets_are_written_into_every_room() {
    on_all(|panel, dice| {
        for table in [whole_case(), small(10), figure_third(3)] {
            let needed = sheet::spell(&table).len();
            for room in 0..needed + 70 {
                compare::writing(panel, dice, &table, room)?;
            }
        }
        for table in [figure_third(62), large_flat(), large_ring()] {
            for room in compare::rooms(&table) {
                compare::writing(panel, dice, &table, room)?;
            }
        }
        Ok(())
    });
}

#[test]
fn a_short_matrix_is_refused_with_2() {
    on_all(|panel, dice| {
        let table = whole_case();
        let answer = work_out(&table);
        for words in 0..=70 {
            compare::analysing(panel, dice, &table, Some(&answer), words)?;
            compare::listing(panel, dice, &table, Some(&answer), words, LISTING_BYTES)?;
            // 2 comes before 14, and 14 leaves the matrix as it was.
            compare::listing(panel, dice, &table, Some(&answer), words, 3)?;
        }
        let mut short = [7u64; 63];
        let got = panel.analyse(&table.kinds, &table.xs, &table.ys, &table.roots, &mut short);
        assert_eq!(got, reply(2, 0));
        assert_eq!(short, [7u64; 63]);
        Ok(())
    });
}

#[test]
fn refusal_1_comes_before_2_and_2_before_3() {
    on_all(|panel, _| {
        let mut short = [7u64; 10];
        assert_eq!(panel.analyse(&[], &[], &[], &[], &mut short), reply(1, 0));
        assert_eq!(
            panel.analyse(&[0], &[0], &[0], &[], &mut short),
            reply(1, 0)
        );
        assert_eq!(panel.analyse(&[], &[], &[], &[0], &mut short), reply(1, 0));
        assert_eq!(
            panel.analyse(&[9], &[0], &[0], &[0], &mut short),
            reply(2, 0)
        );
        let mut matrix = [7u64; 64];
        assert_eq!(
            panel.analyse(&[9], &[0], &[0], &[0], &mut matrix),
            reply(3, 0)
        );
        assert_eq!(short, [7; 10]);
        assert_eq!(matrix, [7; 64]);
        Ok(())
    });
}

#[test]
fn too_few_bytes_are_refused_with_14() {
    on_all(|panel, dice| {
        for table in [
            whole_case(),
            small(1),
            small(10),
            figure_third(62),
            recipe(&[all_together(64)]),
            longest_listing(),
        ] {
            let answer = work_out(&table);
            let length = answer.listing.len();
            for room in [
                0,
                1,
                22,
                length - 2,
                length - 1,
                length,
                length + 1,
                LISTING_BYTES,
            ] {
                compare::listing(panel, dice, &table, Some(&answer), LABELS, room)?;
            }
        }
        let table = whole_case();
        let length = work_out(&table).listing.len();
        let mut matrix = [7u64; 64];
        let mut bytes = vec![b'#'; length - 1];
        let got = panel.list_pairs(
            &table.kinds,
            &table.xs,
            &table.ys,
            &table.roots,
            &mut matrix,
            &mut bytes,
        );
        assert_eq!(got, reply(14, 0));
        assert_eq!(matrix, [7u64; 64]);
        assert!(bytes.iter().all(|&b| b == b'#'));
        Ok(())
    });
}

#[test]
fn plain_slices_of_unequal_length_are_refused_with_1() {
    on_all(|panel, dice| {
        let table = whole_case();
        for cut in 0..table.rows() {
            for which in 0..3 {
                let mut uneven = table.clone();
                match which {
                    0 => uneven.kinds.truncate(cut),
                    1 => uneven.xs.truncate(cut),
                    _ => uneven.ys.truncate(cut),
                }
                compare::analysing(panel, dice, &uneven, None, LABELS)?;
                compare::listing(panel, dice, &uneven, None, LABELS, LISTING_BYTES)?;
            }
        }
        Ok(())
    });
}

#[test]
fn sizes_over_the_ceilings_are_refused_with_1() {
    on_all(|panel, dice| {
        for (rows, procedures) in [
            (0, 0),
            (0, 1),
            (1, 0),
            (1025, 1),
            (1024, 65),
            (1026, 64),
            (5000, 3),
            (70, 65),
            (3, 1000),
            (65_536, 1),
            (65_537, 65_536),
        ] {
            let mut table = Table {
                kinds: vec![0; rows],
                xs: vec![0; rows],
                ys: vec![0; rows],
                roots: vec![0; procedures],
            };
            compare::analysing(panel, dice, &table, None, LABELS)?;
            compare::listing(panel, dice, &table, None, LABELS, LISTING_BYTES)?;
            // The same with a kind out of range: 1 still comes first.
            table.kinds.fill(200);
            compare::analysing(panel, dice, &table, None, LABELS)?;
        }
        Ok(())
    });
}

#[test]
fn rooms_smaller_and_larger_than_the_ceilings() {
    on_all(|panel, dice| {
        let tables = [
            whole_case(),
            small(8),
            figure_third(3),
            ring(64),
            figure_third(62),
        ];
        for table in tables {
            let bytes = sheet::spell(&table);
            let (rows, procedures) = (table.rows(), table.roots.len());
            for less in 0..=2 {
                let n = rows - less.min(rows);
                let p = procedures - less.min(procedures);
                compare::reading(panel, dice, &bytes, [n, rows, rows, procedures])?;
                compare::reading(panel, dice, &bytes, [rows, n, rows, procedures])?;
                compare::reading(panel, dice, &bytes, [rows, rows, n, procedures])?;
                compare::reading(panel, dice, &bytes, [rows, rows, rows, p])?;
                compare::reading(panel, dice, &bytes, [n, n, n, p])?;
            }
            compare::reading(panel, dice, &bytes, [0, 0, 0, 0])?;
            compare::reading(
                panel,
                dice,
                &bytes,
                [rows + 5, rows + 3, rows + 1, procedures + 7],
            )?;
            compare::reading(panel, dice, &bytes, [3000, 3000, 3000, 300])?;
        }
        // Rooms above the ceilings do not lift them.
        let long = sheet::spell(&nested(1025, |_, s| waited(s)));
        compare::reading(panel, dice, &long, [3000, 3000, 3000, 300])?;
        let many = sheet::spell(&recipe(&vec![skip(); 65]));
        compare::reading(panel, dice, &many, [3000, 3000, 3000, 300])
    });
}

#[test]
fn sheets_around_their_greatest_length() {
    on_all(|panel, dice| {
        let room = [ROWS, ROWS, ROWS, PROCEDURES];
        for length in [65_535, 65_536, 65_537, 70_000, 200_000] {
            for byte in [b'\n', b'R', b'\t', 0] {
                compare::reading(panel, dice, &vec![byte; length], room)?;
            }
            let mut full = sheet::spell(&nested(1024, |_, s| waited(s)));
            full.resize(length, b'0');
            compare::reading(panel, dice, &full, room)?;
        }
        Ok(())
    });
}

#[test]
fn twelve_goes_before_thirteen_on_a_line() {
    on_all(|panel, dice| {
        let mut rows_only = nested(1024, |_, s| waited(s));
        rows_only.roots.clear();
        let mut bytes = sheet::spell(&rows_only);
        let room = [ROWS, ROWS, ROWS, PROCEDURES];
        let kept = bytes.len();
        for (tail, number) in [
            ("R\tskip\t0\t0\n", 13),
            ("R\tskip\t00\t0\n", 12),
            ("R\tskip\t0\t0", 12),
            ("R\tskip\t0\t0\r\n", 12),
            ("\n", 12),
            ("P\t1023\n", 0),
        ] {
            bytes.truncate(kept);
            bytes.extend_from_slice(tail.as_bytes());
            let got = sheet::read(&bytes, ROWS, PROCEDURES)
                .err()
                .map_or((0, 0), |r| (r.number, r.place));
            assert_eq!(got, if number == 0 { (0, 0) } else { (number, 1024) });
            compare::reading(panel, dice, &bytes, room)?;
        }
        // A row line after a procedure line is 12 also where no row would fit.
        bytes.extend_from_slice(b"R\tskip\t0\t0\n");
        let refusal = sheet::read(&bytes, ROWS, PROCEDURES).unwrap_err();
        assert_eq!((refusal.number, refusal.place), (12, 1025));
        compare::reading(panel, dice, &bytes, room)
    });
}

/// True if only procedures that main does not reach come back to themselves: a verdict on all procedures would differ.
fn exact_beside_a_self_caller(kinds: &[u8], xs: &[u16], ys: &[u16], roots: &[u16]) -> bool {
    let table = Table {
        kinds: kinds.to_vec(),
        xs: xs.to_vec(),
        ys: ys.to_vec(),
        roots: roots.to_vec(),
    };
    has_an_unreached_self_caller(&table) && !main_reaches_a_self_caller(&table)
}

/// The Rust version with one fault each; the comparisons must find every one.
struct Faulty(usize);

impl Panel for Faulty {
    fn analyse(
        &self,
        kinds: &[u8],
        xs: &[u16],
        ys: &[u16],
        roots: &[u16],
        matrix: &mut [u64],
    ) -> u64 {
        let reply = Straight.analyse(kinds, xs, ys, roots, matrix);
        match self.0 {
            0 => return reply + 1,
            1 if reply >> 32 == 0 => matrix[0] ^= 1 << 63,
            2 if matrix.len() > 64 => matrix[64] = 0,
            3 if reply >> 32 == 4 => matrix[0] ^= 1,
            _ => {}
        }
        reply
    }

    fn read_sheet(
        &self,
        bytes: &[u8],
        kinds: &mut [u8],
        xs: &mut [u16],
        ys: &mut [u16],
        roots: &mut [u16],
    ) -> u64 {
        let reply = Straight.read_sheet(bytes, kinds, xs, ys, roots);
        match self.0 {
            4 if reply >> 32 == 13 && !kinds.is_empty() => kinds[0] ^= 1,
            5 if reply >> 32 == 0 && roots.len() as u64 > reply >> 16 => {
                roots[(reply >> 16) as usize] ^= 1
            }
            6 if reply >> 32 == 12 => return reply + (1 << 32),
            _ => {}
        }
        reply
    }

    fn list_pairs(
        &self,
        kinds: &[u8],
        xs: &[u16],
        ys: &[u16],
        roots: &[u16],
        matrix: &mut [u64],
        bytes: &mut [u8],
    ) -> u64 {
        let reply = Straight.list_pairs(kinds, xs, ys, roots, matrix, bytes);
        match self.0 {
            7 if reply >> 32 == 14 => matrix[63] ^= 1,
            8 if reply >> 32 == 14 && !bytes.is_empty() => bytes[0] ^= 1,
            9 if reply >> 32 == 0 && bytes.len() as u64 > reply => bytes[reply as usize] ^= 1,
            10 if reply >> 32 == 0 => bytes[6] ^= 1,
            28 if reply >> 32 == 0 && exact_beside_a_self_caller(kinds, xs, ys, roots) => {
                bytes[0] ^= 1
            }
            _ => {}
        }
        reply
    }

    fn analyse_rows(&self, rows: &[Row], roots: &[u16], matrix: &mut [u64]) -> u64 {
        let reply = Straight.analyse_rows(rows, roots, matrix);
        match self.0 {
            11 if reply >> 32 == 0 => return reply + 1,
            12 if reply >> 32 == 6 => matrix[63] ^= 1,
            _ => {}
        }
        reply
    }

    fn read_rows(&self, bytes: &[u8], rows: &mut [Row], roots: &mut [u16]) -> u64 {
        let reply = Straight.read_rows(bytes, rows, roots);
        let read = (reply & 0xffff) as usize;
        match self.0 {
            13 if reply >> 32 == 0 && rows.len() > read => rows[read].y ^= 1,
            14 if reply >> 32 == 0 && read > 1 => rows.swap(0, 1),
            15 if reply >> 32 == 12 && !rows.is_empty() => rows[0].kind ^= 1,
            16 if reply >> 32 == 13 && !roots.is_empty() => roots[0] ^= 1,
            _ => {}
        }
        reply
    }

    fn list_rows(&self, rows: &[Row], roots: &[u16], matrix: &mut [u64], bytes: &mut [u8]) -> u64 {
        let reply = Straight.list_rows(rows, roots, matrix, bytes);
        match self.0 {
            17 if reply >> 32 == 14 => matrix[0] ^= 1,
            18 if reply >> 32 == 0 && bytes.len() as u64 > reply => bytes[reply as usize] ^= 1,
            _ => {}
        }
        reply
    }

    fn write_sheet(
        &self,
        kinds: &[u8],
        xs: &[u16],
        ys: &[u16],
        roots: &[u16],
        bytes: &mut [u8],
    ) -> u64 {
        let reply = Straight.write_sheet(kinds, xs, ys, roots, bytes);
        match self.0 {
            19 if reply >> 32 == 0 && bytes.len() as u64 > reply => bytes[reply as usize] ^= 1,
            20 if reply >> 32 == 0 && reply > 0 => bytes[reply as usize - 1] ^= 1,
            21 if reply >> 32 == 14 && !bytes.is_empty() => bytes[0] ^= 1,
            22 if reply >> 32 == 15 => return reply + 1,
            23 if reply >> 32 == 3 => return reply + (1 << 32),
            _ => {}
        }
        reply
    }

    fn write_rows(&self, rows: &[Row], roots: &[u16], bytes: &mut [u8]) -> u64 {
        let reply = Straight.write_rows(rows, roots, bytes);
        match self.0 {
            24 if reply == 0 => return 1 << 32,
            25 if reply >> 32 == 0 && reply > 2 => bytes[..3].reverse(),
            26 if reply >> 32 == 15 && !bytes.is_empty() => bytes[0] ^= 1,
            27 if reply >> 32 == 14 => return 0,
            _ => {}
        }
        reply
    }
}

#[test]
fn the_comparisons_find_faults() {
    for fault in 0..=28 {
        let found =
            (0..2000).any(|i| compare::one(&Faulty(fault), compare::seed_of(13, i)).is_err());
        assert!(found, "fault {fault} was not found");
    }
    assert!((0..500).all(|i| compare::one(&Faulty(29), compare::seed_of(13, i)).is_ok()));
}

/// The Rust version, which then changes one byte by its address, as only foreign code can: beside what is lent, or in what is
/// lent to be read.
struct Scribbling(usize);

impl Scribbling {
    /// Where the faults of an entry lie, from its first fault's number on: each slice is its first byte and its bytes' number,
    /// and a fault lies before it, behind it, and in it where it may only be read.
    fn scribble(&self, mut fault: usize, slices: &[(usize, usize, bool)]) {
        for &(at, bytes, read) in slices {
            let all = [at - 1, at + bytes, at];
            for place in &all[..if read { 3 } else { 2 }] {
                if fault == self.0 {
                    unsafe { *(std::hint::black_box(*place) as *mut u8) ^= 1 }
                }
                fault += 1;
            }
        }
    }
}

fn read<T>(slice: &[T]) -> (usize, usize, bool) {
    (slice.as_ptr() as usize, std::mem::size_of_val(slice), true)
}

fn written<T>(slice: &mut [T]) -> (usize, usize, bool) {
    (
        slice.as_mut_ptr() as usize,
        std::mem::size_of_val(slice),
        false,
    )
}

impl Panel for Scribbling {
    fn analyse(
        &self,
        kinds: &[u8],
        xs: &[u16],
        ys: &[u16],
        roots: &[u16],
        matrix: &mut [u64],
    ) -> u64 {
        let reply = Straight.analyse(kinds, xs, ys, roots, matrix);
        let slices = [
            read(kinds),
            read(xs),
            read(ys),
            read(roots),
            written(matrix),
        ];
        self.scribble(0, &slices);
        reply
    }

    fn read_sheet(
        &self,
        bytes: &[u8],
        kinds: &mut [u8],
        xs: &mut [u16],
        ys: &mut [u16],
        roots: &mut [u16],
    ) -> u64 {
        let reply = Straight.read_sheet(bytes, kinds, xs, ys, roots);
        let slices = [
            read(bytes),
            written(kinds),
            written(xs),
            written(ys),
            written(roots),
        ];
        self.scribble(14, &slices);
        reply
    }

    fn list_pairs(
        &self,
        kinds: &[u8],
        xs: &[u16],
        ys: &[u16],
        roots: &[u16],
        matrix: &mut [u64],
        bytes: &mut [u8],
    ) -> u64 {
        Straight.list_pairs(kinds, xs, ys, roots, matrix, bytes)
    }

    fn analyse_rows(&self, rows: &[Row], roots: &[u16], matrix: &mut [u64]) -> u64 {
        Straight.analyse_rows(rows, roots, matrix)
    }

    fn read_rows(&self, bytes: &[u8], rows: &mut [Row], roots: &mut [u16]) -> u64 {
        let reply = Straight.read_rows(bytes, rows, roots);
        self.scribble(25, &[read(bytes), written(rows), written(roots)]);
        reply
    }

    fn list_rows(&self, rows: &[Row], roots: &[u16], matrix: &mut [u64], bytes: &mut [u8]) -> u64 {
        let reply = Straight.list_rows(rows, roots, matrix, bytes);
        self.scribble(
            32,
            &[read(rows), read(roots), written(matrix), written(bytes)],
        );
        reply
    }

    fn write_sheet(
        &self,
        kinds: &[u8],
        xs: &[u16],
        ys: &[u16],
        roots: &[u16],
        bytes: &mut [u8],
    ) -> u64 {
        let reply = Straight.write_sheet(kinds, xs, ys, roots, bytes);
        let slices = [read(kinds), read(xs), read(ys), read(roots), written(bytes)];
        self.scribble(42, &slices);
        reply
    }

    fn write_rows(&self, rows: &[Row], roots: &[u16], bytes: &mut [u8]) -> u64 {
        let reply = Straight.write_rows(rows, roots, bytes);
        self.scribble(56, &[read(rows), read(roots), written(bytes)]);
        reply
    }
}

#[test]
fn the_fences_find_what_is_written_beside_what_is_lent() {
    for fault in 0..=64 {
        let panel = Fenced(Box::new(Scribbling(fault)));
        let work = || compare::sheet(&panel, &mut Dice::new(8), &sheet::spell(&whole_case()));
        let outcome = std::panic::catch_unwind(std::panic::AssertUnwindSafe(work));
        assert_eq!(outcome.is_err(), fault < 64, "fault {fault}");
    }
}
