//! The stack that each of the library's entries takes for a single row, and the most on chains as deep as 1,024 rows can be.
//!
//!   cargo run --release --bin stack        (in tests/second, BUSHKALOTE_PANEL the folder of libpanel.a)
//!
//! The stack below the caller is painted, the entry called, and the lowest place found where the paint is gone.
//! A level is what one level more takes, between half the depth and the whole. An entry that takes less than 256 bytes is shown
//! with 256. x86-64 only.

use std::process::ExitCode;

#[cfg(all(panel, target_arch = "x86_64"))]
mod painted {
    use second::panel::Panel;
    use second::samples::{looped, nested, seq, spawned, step, waited, Statement};
    use second::table::Row;
    use second::{sheet, Table};
    use second::{LABELS, LISTING_BYTES, PROCEDURES, ROWS, WRITTEN_BYTES};
    use std::arch::asm;

    const PAINT: u64 = 0xa5c3_96e1_0f78_5ad2;
    /// So much is painted, and so much nearest to the caller is not: the painter's own frame lies there.
    const DEPTH: usize = 4 << 20;
    const OWN: usize = 1 << 8;

    #[inline(always)]
    fn stack_pointer() -> usize {
        let at: usize;
        unsafe { asm!("mov {}, rsp", out(reg) at, options(nomem, nostack, preserves_flags)) };
        at
    }

    #[inline(never)]
    unsafe fn paint(low: usize, high: usize) {
        for at in (low..high).step_by(8) {
            (at as *mut u64).write_volatile(PAINT);
        }
    }

    #[inline(never)]
    unsafe fn lowest_touched(low: usize, high: usize) -> usize {
        (low..high)
            .step_by(8)
            .find(|&at| (at as *const u64).read_volatile() != PAINT)
            .unwrap_or(high)
    }

    /// The bytes of stack below this function that a call takes, in a thread whose stack is long enough.
    #[inline(never)]
    fn taken(call: &mut dyn FnMut() -> u64) -> usize {
        let here = stack_pointer() & !7;
        unsafe { paint(here - DEPTH, here - OWN) };
        let reply = call();
        assert_eq!(reply >> 32, 0, "refused");
        here - unsafe { lowest_touched(here - DEPTH, here - OWN) }
    }

    const ENTRIES: [&str; 8] = [
        "analyse",
        "analyse_rows",
        "list_pairs",
        "list_rows",
        "read_sheet",
        "read_rows",
        "write_sheet",
        "write_rows",
    ];

    /// What each entry takes on a table and its sheet.
    fn of_table(panel: &dyn Panel, t: &Table) -> [usize; 8] {
        let rows = t.records().expect("an even table");
        let bytes = sheet::spell(t);
        let mut matrix = vec![0; LABELS];
        let mut listed = vec![0; LISTING_BYTES];
        let mut written = vec![0; WRITTEN_BYTES];
        let (mut kinds, mut xs, mut ys) = (vec![0; ROWS], vec![0; ROWS], vec![0; ROWS]);
        let mut stored = vec![
            Row {
                kind: 0,
                x: 0,
                y: 0
            };
            ROWS
        ];
        let mut roots = vec![0; PROCEDURES];
        [
            taken(&mut || panel.analyse(&t.kinds, &t.xs, &t.ys, &t.roots, &mut matrix)),
            taken(&mut || panel.analyse_rows(&rows, &t.roots, &mut matrix)),
            taken(&mut || {
                panel.list_pairs(&t.kinds, &t.xs, &t.ys, &t.roots, &mut matrix, &mut listed)
            }),
            taken(&mut || panel.list_rows(&rows, &t.roots, &mut matrix, &mut listed)),
            taken(&mut || panel.read_sheet(&bytes, &mut kinds, &mut xs, &mut ys, &mut roots)),
            taken(&mut || panel.read_rows(&bytes, &mut stored, &mut roots)),
            taken(&mut || panel.write_sheet(&t.kinds, &t.xs, &t.ys, &t.roots, &mut written)),
            taken(&mut || panel.write_rows(&rows, &t.roots, &mut written)),
        ]
    }

    type Wrap = fn(usize, Statement) -> Statement;
    /// The chains: each wraps a step again and again, with so many rows a level.
    const CHAINS: [(&str, usize, Wrap); 5] = [
        ("loop", 1, |_, s| looped(s)),
        ("async", 1, |_, s| spawned(s)),
        ("finish", 1, |_, s| waited(s)),
        ("seq, first", 2, |_, s| seq(s, step(1))),
        ("seq, second", 2, |_, s| seq(step(1), s)),
    ];

    /// A line an entry: what it takes for a single row, the most, a level's part of it, and the first chain that takes so much.
    fn table() {
        let panel = second::panel::library().expect("the linked library");
        let takes = |levels, wrap: Wrap| of_table(panel.as_ref(), &nested(levels, wrap));
        let all = CHAINS.map(|(of, rows, wrap)| {
            let levels = ROWS / rows;
            (of, levels / 2, takes(levels / 2, wrap), takes(levels, wrap))
        });
        let single = takes(1, |_, s| s);
        println!(
            "{:<14} {:>8} {:>8} {:>8}  chain of",
            "entry", "one row", "most", "a level"
        );
        for (i, entry) in ENTRIES.iter().enumerate() {
            let most = all.iter().map(|(.., full)| full[i]).max().unwrap();
            let (of, levels, half, _) = all.iter().find(|(.., full)| full[i] == most).unwrap();
            let level = (most - half[i]) as f64 / *levels as f64;
            let one = single[i];
            println!("{entry:<14} {one:>8} {most:>8} {level:>8.1}  {of}");
        }
    }

    pub fn run() {
        std::thread::Builder::new()
            .stack_size(DEPTH + (1 << 20))
            .spawn(table)
            .and_then(|thread| {
                thread
                    .join()
                    .map_err(|_| std::io::Error::other("the thread failed"))
            })
            .expect("a thread with a stack of 5 MB");
    }
}

fn main() -> ExitCode {
    #[cfg(all(panel, target_arch = "x86_64"))]
    {
        painted::run();
        ExitCode::SUCCESS
    }
    #[cfg(not(all(panel, target_arch = "x86_64")))]
    {
        eprintln!(
            "stack: needs x86-64, and BUSHKALOTE_PANEL (the folder of libpanel.a) at build time"
        );
        ExitCode::from(2)
    }
}
