//! The edge of every rule, case by case with the reply that is due: the judge's refusals at first, middle and last place, the
//! operands of each kind, the sheet's form at first, middle and last line, the ceilings and the lent room, and what can be
//! written. Each case runs on slices and on records, by every version at hand, and what is lent is looked at afterwards.

mod common;

use common::{holds, note_if_no_library, prints, reads, refused, writes};
use second::samples::{looped, nested};
use second::table::Table;

type Row = (u8, u16, u16);

fn table(rows: &[Row], roots: &[u16]) -> Table {
    Table {
        kinds: rows.iter().map(|row| row.0).collect(),
        xs: rows.iter().map(|row| row.1).collect(),
        ys: rows.iter().map(|row| row.2).collect(),
        roots: roots.to_vec(),
    }
}

/// An admitted table with every kind: main is row 3, async{0}; 1, and the other procedures are rows 4 and 7. The one of row 4
/// calls itself, and main does not reach it.
const BASE: [Row; 8] = [
    (1, 0, 0),
    (4, 0, 0),
    (1, 1, 0),
    (2, 1, 2),
    (6, 1, 0),
    (0, 0, 0),
    (3, 5, 0),
    (5, 6, 0),
];
const ROOTS: [u16; 3] = [3, 4, 7];
/// Its first row, one in the middle and the last.
const PLACES: [u16; 3] = [0, 3, 7];

/// The base table with another row.
fn with(at: u16, row: Row) -> Table {
    let mut rows = BASE;
    rows[at as usize] = row;
    table(&rows, &ROOTS)
}

/// As many procedures as rows, and a skip in each.
fn skips(n: u16) -> Table {
    let roots: Vec<u16> = (0..n).collect();
    table(&vec![(0, 0, 0); n as usize], &roots)
}

/// A step under loops, one in the other.
fn loops(rows: usize) -> Table {
    nested(rows, |_, s| looped(s))
}

#[test]
fn which_versions_are_at_hand() {
    note_if_no_library("the cases");
}

#[test]
fn admitted_at_the_edge() {
    let cases: [(&str, Table, &[(usize, usize)], usize, &str); 8] = [
        ("base", table(&BASE, &ROOTS), &[(0, 1)], 1, "exact"),
        ("label 63", with(0, (1, 63, 0)), &[(1, 63)], 1, "exact"),
        ("child just below", with(3, (2, 2, 1)), &[], 1, "exact"),
        ("call in main", with(2, (6, 1, 0)), &[], 1, "wide"),
        ("last procedure", with(4, (6, 2, 0)), &[(0, 1)], 1, "exact"),
        ("call of main", with(4, (6, 0, 0)), &[(0, 1)], 2, "exact"),
        ("64 procedures", skips(64), &[], 0, "exact"),
        ("1,024 rows", loops(1024), &[], 1, "exact"),
    ];
    for (name, table, pairs, rounds, verdict) in cases {
        holds(name, &table, pairs, rounds, verdict);
    }
}

#[test]
fn sizes() {
    // The lengths of kinds, xs, ys and roots.
    const LENGTHS: [(&str, [usize; 4]); 9] = [
        ("kinds short", [7, 8, 8, 3]),
        ("xs short", [8, 7, 8, 3]),
        ("ys short", [8, 8, 7, 3]),
        ("xs long", [8, 9, 8, 3]),
        ("ys long", [8, 8, 9, 3]),
        ("no ys", [8, 8, 0, 3]),
        ("no rows", [0, 0, 0, 3]),
        ("no procedures", [8, 8, 8, 0]),
        ("nothing", [0, 0, 0, 0]),
    ];
    for (name, [kinds, xs, ys, roots]) in LENGTHS {
        let mut uneven = table(&BASE, &ROOTS);
        uneven.kinds.resize(kinds, 0);
        uneven.xs.resize(xs, 0);
        uneven.ys.resize(ys, 0);
        uneven.roots.resize(roots, 0);
        refused(name, &uneven, 1, 0);
    }
    refused("65 procedures", &skips(65), 1, 0);
    refused("1,025 rows", &loops(1025), 1, 0);
}

#[test]
fn kinds() {
    for at in PLACES {
        for kind in [7, 8, 128, 255] {
            refused("unknown kind", &with(at, (kind, 0, 0)), 3, at.into());
        }
    }
}

#[test]
fn operands() {
    // What is wrong, and the row for the place where it stands.
    const WRONG: [(&str, fn(u16) -> Row); 24] = [
        ("skip with x", |_| (0, 1, 0)),
        ("skip with y", |_| (0, 0, 1)),
        ("skip with y 256", |_| (0, 0, 256)),
        ("label 64", |_| (1, 64, 0)),
        ("label 256", |_| (1, 256, 0)),
        ("label 65,535", |_| (1, u16::MAX, 0)),
        ("step with y", |_| (1, 0, 1)),
        ("seq, its own row first", |r| (2, r, r.saturating_sub(1))),
        ("seq, its own row second", |r| (2, r.saturating_sub(1), r)),
        ("seq, a row above first", |r| {
            (2, r + 1, r.saturating_sub(1))
        }),
        ("seq, a row above second", |r| {
            (2, r.saturating_sub(1), r + 1)
        }),
        ("loop of its own row", |r| (3, r, 0)),
        ("loop of a row above", |r| (3, r + 1, 0)),
        ("loop with y", |r| (3, r.saturating_sub(1), 1)),
        ("async of its own row", |r| (4, r, 0)),
        ("async of a row above", |r| (4, r + 1, 0)),
        ("async with y", |r| (4, r.saturating_sub(1), 1)),
        ("finish of its own row", |r| (5, r, 0)),
        ("finish of a row above", |r| (5, r + 1, 0)),
        ("finish with y", |r| (5, r.saturating_sub(1), 1)),
        ("call of the procedure after the last", |_| (6, 3, 0)),
        ("call of procedure 256", |_| (6, 256, 0)),
        ("call of procedure 65,535", |_| (6, u16::MAX, 0)),
        ("call with y", |_| (6, 0, 1)),
    ];
    for (name, row) in WRONG {
        for at in PLACES {
            refused(name, &with(at, row(at)), 4, at.into());
        }
    }
}

#[test]
fn roots() {
    for p in 0..ROOTS.len() {
        for root in [8, 1024, u16::MAX] {
            let mut wrong = table(&BASE, &ROOTS);
            wrong.roots[p] = root;
            refused("root that is no row", &wrong, 5, p);
        }
    }
}

#[test]
fn rows_used_twice_or_by_nobody() {
    refused("first row twice", &with(6, (3, 0, 0)), 6, 0);
    refused("middle row twice", &with(7, (5, 3, 0)), 6, 3);
    refused("last row twice", &table(&BASE, &[7, 4, 7]), 6, 7);
    refused("root of two", &table(&BASE, &[3, 3, 7]), 6, 3);
    refused("first row unused", &with(1, (0, 0, 0)), 7, 0);
    refused("middle row unused", &with(3, (3, 1, 0)), 7, 2);
    refused("last row unused", &table(&BASE, &[3, 4]), 7, 7);
}

#[test]
fn each_rule_is_tried_over_the_whole_table_before_the_next() {
    // Two faults and more: rows, roots, and the refusal that is due.
    #[rustfmt::skip]
    const FAULTS: [(&[Row], &[u16], u32, usize); 13] = [
        (&[(1, 64, 0), (7, 0, 0)], &[1], 3, 1),
        (&[(0, 9, 0), (7, 0, 0), (255, 0, 0), (0, 0, 0)], &[9], 3, 1),
        (&[(0, 0, 0), (1, 64, 0), (1, 64, 0), (6, 5, 0)], &[9], 4, 1),
        (&[(0, 0, 0), (0, 0, 0), (0, 0, 1), (0, 0, 1)], &[9], 4, 2),
        (&[(0, 0, 0), (2, 0, 1)], &[1], 4, 1),
        (&[(0, 0, 0), (2, 1, 0)], &[1], 4, 1),
        (&[(3, 0, 0)], &[0], 4, 0),
        (&[(6, 1, 0), (6, 2, 0)], &[0, 1], 4, 1),
        (&[(0, 0, 0), (0, 0, 0)], &[0, 2, 65_535], 5, 1),
        (&[(0, 0, 0), (0, 0, 0), (0, 0, 0)], &[2, 1, 1, 2], 6, 1),
        (&[(0, 0, 0), (3, 0, 0), (3, 0, 0)], &[1, 1], 6, 0),
        (&[(0, 0, 0), (0, 0, 0), (2, 1, 1)], &[2], 6, 1),
        (&[(0, 0, 0), (0, 0, 0), (0, 0, 0), (0, 0, 0)], &[3, 0], 7, 1),
    ];
    for (rows, roots, number, place) in FAULTS {
        refused(&format!("{rows:?}"), &table(rows, roots), number, place);
    }
}

/// Room for three rows and two procedures.
const ROOM: [usize; 4] = [3, 3, 3, 2];
const ROW: &str = "R\tstep\t1\t0\n";

/// A line that misses the form, as the first, the second and the third of three.
fn wrong_line(name: &str, line: &[u8]) {
    for place in 0..3 {
        let mut lines = [ROW.as_bytes(); 3];
        lines[place] = line;
        let bytes = lines.concat();
        reads(name, &bytes, ROOM, Err((12, place)));
        if place == 1 {
            prints(name, &bytes, "refused\t12\t1\n");
        }
    }
}

#[test]
fn sheets_of_the_form() {
    #[rustfmt::skip]
    const READ: [(&str, &str, &[Row], &[u16]); 5] = [
        ("no bytes", "", &[], &[]),
        ("rows only", "R\tskip\t0\t0\nR\tstep\t63\t0\nR\tseq\t0\t1\n", &[(0, 0, 0), (1, 63, 0), (2, 0, 1)], &[]),
        ("procedures only", "P\t0\nP\t9999\n", &[], &[0, 9999]),
        ("rows and a procedure", "R\tloop\t9\t10\nR\tasync\t99\t100\nP\t1\n", &[(3, 9, 10), (4, 99, 100)], &[1]),
        ("room exactly full", "R\tfinish\t999\t1000\nR\tcall\t9999\t1\nR\tskip\t0\t0\nP\t2\nP\t1\n",
            &[(5, 999, 1000), (6, 9999, 1), (0, 0, 0)], &[2, 1]),
    ];
    for (name, sheet, rows, roots) in READ {
        reads(name, sheet.as_bytes(), ROOM, Ok(table(rows, roots)));
    }
    prints("no bytes", b"", "refused\t1\t0\n");
}

#[test]
fn lines_that_miss_the_form() {
    const WRONG: [(&str, &[u8]); 31] = [
        ("empty line", b"\n"),
        ("lower-case r", b"r\tstep\t1\t0\n"),
        ("lower-case p", b"p\t1\n"),
        ("another mark", b"Q\t1\n"),
        ("mark of rows alone", b"R\n"),
        ("mark of procedures alone", b"P\n"),
        ("no mark", b"step\t1\t0\n"),
        ("space before", b" R\tstep\t1\t0\n"),
        ("tab before", b"\tR\tstep\t1\t0\n"),
        ("byte 0", b"\x00\n"),
        ("byte 255", b"R\tstep\t1\t\xff\n"),
        ("space for the first tab", b"R step\t1\t0\n"),
        ("space for the second tab", b"R\tstep 1\t0\n"),
        ("space for the last tab", b"R\tstep\t1 0\n"),
        ("no tab", b"Rstep\t1\t0\n"),
        ("two tabs before the keyword", b"R\t\tstep\t1\t0\n"),
        ("two tabs before x", b"R\tstep\t\t1\t0\n"),
        ("two tabs before y", b"R\tstep\t1\t\t0\n"),
        ("unknown keyword", b"R\tstop\t1\t0\n"),
        ("empty keyword", b"R\t\t1\t0\n"),
        ("missing y", b"R\tstep\t1\n"),
        ("missing x and y", b"R\tstep\n"),
        ("extra field", b"R\tstep\t1\t0\t0\n"),
        ("tab at the end", b"R\tstep\t1\t0\t\n"),
        ("root with an extra field", b"P\t1\t0\n"),
        ("root with a tab at the end", b"P\t1\t\n"),
        ("row with the mark of procedures", b"P\tstep\t1\t0\n"),
        ("root with the mark of rows", b"R\t1\n"),
        ("carriage return", b"R\tstep\t1\t0\r\n"),
        ("carriage return alone", b"R\tstep\t1\t0\r"),
        ("space at the end", b"R\tstep\t1\t0 \n"),
    ];
    for (name, line) in WRONG {
        wrong_line(name, line);
    }
}

#[test]
fn keywords() {
    const KINDS: [&str; 7] = ["skip", "step", "seq", "loop", "async", "finish", "call"];
    for (kind, keyword) in KINDS.into_iter().enumerate() {
        let line = |keyword: &str| format!("R\t{keyword}\t12\t345\n");
        let due = table(&[(kind as u8, 12, 345)], &[]);
        reads(keyword, line(keyword).as_bytes(), ROOM, Ok(due));
        let capital = keyword[..1].to_uppercase() + &keyword[1..];
        for near in [
            &keyword[1..],
            &keyword[..keyword.len() - 1],
            &format!("{keyword}s"),
            &format!("{keyword} "),
            &capital,
            &keyword.to_uppercase(),
        ] {
            wrong_line(near, line(near).as_bytes());
        }
    }
}

#[test]
fn numbers() {
    const RIGHT: [u16; 9] = [0, 1, 9, 10, 99, 100, 999, 1000, 9999];
    const WRONG: [&str; 17] = [
        "", "00", "01", "007", "0000", "+1", "-1", "10000", "12345", "00000", "1a", "a1", "1/",
        "1:", " 1", "1 ", "1.",
    ];
    // A number as x, as y and as a root.
    let lines = |n: &str| {
        [
            format!("R\tstep\t{n}\t0\n"),
            format!("R\tstep\t1\t{n}\n"),
            format!("P\t{n}\n"),
        ]
    };
    for n in RIGHT {
        let due = [
            table(&[(1, n, 0)], &[]),
            table(&[(1, 1, n)], &[]),
            table(&[], &[n]),
        ];
        for (line, due) in lines(&n.to_string()).iter().zip(due) {
            reads(line, line.as_bytes(), ROOM, Ok(due));
        }
    }
    for n in WRONG {
        for line in lines(n) {
            wrong_line(&line, line.as_bytes());
        }
    }
}

#[test]
fn ends_late_rows_and_room() {
    #[rustfmt::skip]
    const REFUSED: [(&str, &str, u32, usize); 17] = [
        ("open end, first line", "R\tstep\t1\t0", 12, 0),
        ("open end, last line", "R\tstep\t1\t0\nP\t0", 12, 1),
        ("open end, mark only", "R\tstep\t1\t0\nR", 12, 1),
        ("empty line at the end", "R\tstep\t1\t0\n\n", 12, 1),
        ("late row, second line", "P\t0\nR\tstep\t1\t0\n", 12, 1),
        ("late row, middle line", "R\tstep\t1\t0\nP\t0\nR\tstep\t1\t0\nP\t0\n", 12, 2),
        ("late row, last line", "R\tstep\t1\t0\nP\t0\nP\t0\nR\tstep\t1\t0\n", 12, 3),
        ("one row too many", "R\tskip\t0\t0\nR\tskip\t0\t0\nR\tskip\t0\t0\nR\tskip\t0\t0\n", 13, 3),
        ("one procedure too many", "R\tskip\t0\t0\nP\t0\nP\t0\nP\t0\n", 13, 3),
        ("no room before a wrong line", "P\t0\nP\t0\nP\t0\nR\n", 13, 2),
        ("wrong line before no room", "R\tskip\t0\nP\t0\nP\t0\nP\t0\n", 12, 0),
        ("wrong line without room", "R\tskip\t0\t0\nR\tskip\t0\t0\nR\tskip\t0\t0\nR\tskip\t0\n", 12, 3),
        ("open line without room", "R\tskip\t0\t0\nR\tskip\t0\t0\nR\tskip\t0\t0\nR\tskip\t0\t0", 12, 3),
        ("late row without room", "R\tskip\t0\t0\nR\tskip\t0\t0\nR\tskip\t0\t0\nP\t0\nR\tskip\t0\t0\n", 12, 4),
        ("wrong root without room", "P\t0\nP\t0\nP\t00\n", 12, 2),
        ("open root without room", "P\t0\nP\t0\nP\t0", 12, 2),
        ("empty line without room", "P\t0\nP\t0\n\n", 12, 2),
    ];
    for (name, sheet, number, place) in REFUSED {
        reads(name, sheet.as_bytes(), ROOM, Err((number, place)));
    }
}

#[test]
fn the_shortest_of_the_lent_slices_counts() {
    let rows = |n: usize| "R\tskip\t0\t0\n".repeat(n) + "P\t0\n";
    for (name, room) in [
        ("two places for kinds", [2, 3, 5, 1]),
        ("two places for x", [4, 2, 3, 1]),
        ("two places for y", [4, 3, 2, 1]),
    ] {
        let due = table(&[(0, 0, 0); 2], &[0]);
        reads(name, rows(2).as_bytes(), room, Ok(due));
        reads(name, rows(3).as_bytes(), room, Err((13, 2)));
    }
    let one = rows(1).into_bytes();
    reads("no place for roots", &one, [1, 1, 1, 0], Err((13, 1)));
    reads("no places", &one, [0; 4], Err((13, 0)));
}

#[test]
fn the_sheet_s_ceilings() {
    let room = [1030, 1040, 1050, 70];
    let sheet = |rows: usize, procedures: usize| {
        ("R\tskip\t0\t0\n".repeat(rows) + &"P\t0\n".repeat(procedures)).into_bytes()
    };
    let due = table(&vec![(0, 0, 0); 1024], &[0; 64]);
    reads("1,024 rows, 64 procedures", &sheet(1024, 64), room, Ok(due));
    reads("65 procedures", &sheet(1024, 65), room, Err((13, 1088)));
    reads("1,025 rows", &sheet(1025, 0), room, Err((13, 1024)));
    let most = sheet(0, 16_384);
    assert_eq!(most.len(), 65_536);
    reads("65,536 bytes", &most, room, Err((13, 64)));
    prints("65,536 bytes", &most, "refused\t13\t64\n");
    let more = [&most[..], b"\n"].concat();
    reads("65,537 bytes", &more, room, Err((11, 0)));
    prints("65,537 bytes", &more, "refused\t11\t0\n");
}

#[test]
fn tables_that_are_written() {
    #[rustfmt::skip]
    const WRITTEN: [(&str, &[Row], &[u16], &str); 8] = [
        ("nothing", &[], &[], ""),
        ("rows only", &[(0, 0, 0), (1, 63, 0), (2, 0, 1)], &[], "R\tskip\t0\t0\nR\tstep\t63\t0\nR\tseq\t0\t1\n"),
        ("procedures only", &[], &[0, 9999], "P\t0\nP\t9999\n"),
        ("rows and a procedure", &[(3, 9, 10), (4, 99, 100)], &[1], "R\tloop\t9\t10\nR\tasync\t99\t100\nP\t1\n"),
        // None of these is a recipe: operands and roots that are no row, no label or no procedure, and rows that nobody uses.
        ("a skip's operands", &[(0, 9999, 1)], &[0], "R\tskip\t9999\t1\nP\t0\n"),
        ("label 64 and a y", &[(1, 64, 7)], &[0], "R\tstep\t64\t7\nP\t0\n"),
        ("no such procedure", &[(6, 9, 0), (5, 1, 0)], &[0], "R\tcall\t9\t0\nR\tfinish\t1\t0\nP\t0\n"),
        ("no such root", &[(0, 0, 0)], &[1, 0, 0], "R\tskip\t0\t0\nP\t1\nP\t0\nP\t0\n"),
    ];
    for (name, rows, roots, sheet) in WRITTEN {
        writes(name, &table(rows, roots), Ok(sheet));
    }
    let base = "R\tstep\t0\t0\nR\tasync\t0\t0\nR\tstep\t1\t0\nR\tseq\t1\t2\nR\tcall\t1\t0\nR\tskip\t0\t0\n\
                R\tloop\t5\t0\nR\tfinish\t6\t0\nP\t3\nP\t4\nP\t7\n";
    writes("base", &table(&BASE, &ROOTS), Ok(base));
}

#[test]
fn numbers_that_are_written() {
    for n in [0, 1, 9, 10, 11, 99, 100, 101, 999, 1000, 1001, 9998, 9999] {
        for (kind, keyword) in ["skip", "step", "seq", "loop", "async", "finish", "call"]
            .into_iter()
            .enumerate()
        {
            let kind = kind as u8;
            let as_x = format!("R\t{keyword}\t{n}\t0\nP\t0\n");
            writes(&as_x, &table(&[(kind, n, 0)], &[0]), Ok(&as_x));
            let as_y = format!("R\t{keyword}\t0\t{n}\nP\t0\n");
            writes(&as_y, &table(&[(kind, 0, n)], &[0]), Ok(&as_y));
        }
        let as_root = format!("R\tskip\t0\t0\nP\t0\nP\t{n}\n");
        writes(&as_root, &table(&[(0, 0, 0)], &[0, n]), Ok(&as_root));
    }
}

#[test]
fn numbers_that_no_sheet_holds() {
    for long in [10_000, 10_001, 16_384, 32_768, u16::MAX] {
        for at in PLACES {
            let (kind, x, y) = BASE[at as usize];
            let due = Err((15, at.into()));
            // A y that its kind does not use as well.
            writes("a long x", &with(at, (kind, long, y)), due);
            writes("a long y", &with(at, (kind, x, long)), due);
            writes("both long", &with(at, (kind, long, long)), due);
        }
        for p in 0..ROOTS.len() {
            let mut wrong = table(&BASE, &ROOTS);
            wrong.roots[p] = long;
            writes("a long root", &wrong, Err((15, p)));
            wrong.roots[2] = long;
            writes("another long root behind it", &wrong, Err((15, p)));
            // A row goes before every procedure.
            wrong.ys[7] = long;
            writes("a long root and a long y", &wrong, Err((15, 7)));
            wrong.xs[3] = long;
            writes("and a long x", &wrong, Err((15, 3)));
        }
        writes("no rows", &table(&[], &[0, 0, long]), Err((15, 2)));
    }
    let mut wrong = with(6, (3, 10_000, 0));
    wrong.ys[4] = 10_000;
    writes("the lower row has the y", &wrong, Err((15, 4)));
    wrong.xs[2] = 10_000;
    writes("the lower row has the x", &wrong, Err((15, 2)));
}

#[test]
fn sizes_and_kinds_that_are_not_written() {
    // The lengths of kinds, xs, ys and roots.
    const UNEVEN: [(&str, [usize; 4]); 9] = [
        ("kinds short", [7, 8, 8, 3]),
        ("xs short", [8, 7, 8, 3]),
        ("ys short", [8, 8, 7, 3]),
        ("kinds long", [9, 8, 8, 3]),
        ("xs long", [8, 9, 8, 3]),
        ("ys long", [8, 8, 9, 3]),
        ("no kinds", [0, 8, 8, 3]),
        ("no ys", [8, 8, 0, 3]),
        ("one x and nothing else", [0, 1, 0, 0]),
    ];
    for (name, [kinds, xs, ys, roots]) in UNEVEN {
        let mut uneven = table(&BASE, &ROOTS);
        uneven.kinds.resize(kinds, 0);
        uneven.xs.resize(xs, 0);
        uneven.ys.resize(ys, 0);
        uneven.roots.resize(roots, 0);
        writes(name, &uneven, Err((1, 0)));
    }
    writes("65 procedures", &skips(65), Err((1, 0)));
    writes("1,025 rows", &loops(1025), Err((1, 0)));
    // By their low 16 bits, or by the low 8 of 257, these would be few.
    let many = vec![(0, 0, 0); 65_540];
    writes("65,540 rows", &table(&many, &[0]), Err((1, 0)));
    writes("65,540 procedures", &table(&[], &[0; 65_540]), Err((1, 0)));
    writes("257 procedures", &table(&[], &[0; 257]), Err((1, 0)));
    for at in PLACES {
        for kind in [7, 8, 128, 255] {
            writes("unknown kind", &with(at, (kind, 0, 0)), Err((3, at.into())));
        }
    }
}

#[test]
fn each_rule_of_writing_is_tried_before_the_next() {
    // Two faults and more: rows, roots, and the refusal that is due.
    #[rustfmt::skip]
    const FAULTS: [(&[Row], &[u16], u32, usize); 6] = [
        (&[(0, 10_000, 0), (7, 0, 0), (8, 0, 0)], &[10_000], 3, 1),
        (&[(0, 0, 0), (7, 10_000, 0)], &[0], 3, 1),
        (&[(0, 0, 0), (0, 0, 10_000), (0, 10_000, 0)], &[10_000], 15, 1),
        (&[(0, 0, 0), (0, 0, 0)], &[0, 10_000, 65_535], 15, 1),
        (&[(1, 64, 0), (1, 9999, 9999), (2, 10_000, 9)], &[9], 15, 2),
        (&[(255, 65_535, 65_535)], &[65_535], 3, 0),
    ];
    for (rows, roots, number, place) in FAULTS {
        let due = Err((number, place));
        writes(&format!("{rows:?}"), &table(rows, roots), due);
    }
    let mut worst = table(&[(255, u16::MAX, u16::MAX); 1025], &[u16::MAX; 65]);
    writes("everything wrong", &worst, Err((1, 0)));
    worst.ys.pop();
    writes("everything wrong, and uneven", &worst, Err((1, 0)));
}

#[test]
fn the_longest_sheets() {
    let row = (5, 9999, 9999);
    let lines = |rows: usize, procedures: usize| {
        "R\tfinish\t9999\t9999\n".repeat(rows) + &"P\t9999\n".repeat(procedures)
    };
    assert_eq!(lines(1024, 64).len(), second::WRITTEN_BYTES);
    let most = table(&vec![row; 1024], &[9999; 64]);
    writes("the longest", &most, Ok(&lines(1024, 64)));
    let rows = table(&vec![row; 1024], &[]);
    writes("all rows", &rows, Ok(&lines(1024, 0)));
    let roots = table(&[], &[9999; 64]);
    writes("all procedures", &roots, Ok(&lines(0, 64)));
    let more = table(&vec![row; 1024], &[9999; 65]);
    writes("one procedure more", &more, Err((1, 0)));
    let more = table(&vec![row; 1025], &[9999; 64]);
    writes("one row more", &more, Err((1, 0)));
}

/// Every entry on the deepest chains runs with so much stack; `cargo run --bin stack` tells how much each takes.
#[cfg(panel)]
#[test]
fn the_deepest_chains_run_with_400_kilobytes_of_stack() {
    use second::panel::Library;
    use second::samples::{spawned, waited, Statement};
    use second::{compare, dice::Dice, sheet, work_out, LABELS, LISTING_BYTES, WRITTEN_BYTES};
    let wraps: [fn(usize, Statement) -> Statement; 3] =
        [|_, s| looped(s), |_, s| spawned(s), |_, s| waited(s)];
    for wrap in wraps {
        let deep = nested(1024, wrap);
        let answer = work_out(&deep);
        let bytes = sheet::spell(&deep);
        let ask = move || {
            let dice = &mut Dice::new(9);
            compare::reading(&Library, dice, &bytes, [1024, 1024, 1024, 64])?;
            compare::analysing(&Library, dice, &deep, Some(&answer), LABELS)?;
            compare::listing(&Library, dice, &deep, Some(&answer), LABELS, LISTING_BYTES)?;
            compare::writing(&Library, dice, &deep, WRITTEN_BYTES)
        };
        let thread = std::thread::Builder::new().stack_size(400 << 10).spawn(ask);
        assert_eq!(thread.unwrap().join().unwrap(), Ok(()));
    }
}
