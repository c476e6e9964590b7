//! A long run of generated comparisons with the static library.
//!
//!   cargo run --release --bin long -- --n 1000000 --seed 1
//!
//! Stops at the first difference, prints the sheet or the table that shows it,
//! and ends with status 1; status 2 if it could not run.

use std::process::ExitCode;

struct Wanted {
    n: u64,
    seed: u64,
}

fn arguments() -> Option<Wanted> {
    let mut wanted = Wanted {
        n: 100_000,
        seed: 1,
    };
    let mut rest = std::env::args().skip(1);
    while let Some(name) = rest.next() {
        let value = rest.next()?.parse().ok()?;
        match name.as_str() {
            "--n" => wanted.n = value,
            "--seed" => wanted.seed = value,
            _ => return None,
        }
    }
    Some(wanted)
}

fn run(wanted: &Wanted) -> ExitCode {
    use second::compare;
    use second::fenced::Fenced;
    use second::panel::library;
    use std::io::Write;
    use std::time::{Duration, Instant};

    let Some(library) = library() else {
        eprintln!("long: not run: neither BUSHKALOTE_PANEL (the folder of libpanel.a, at build time) nor BUSHKALOTE_SERVER is set");
        return ExitCode::from(2);
    };
    let library = Fenced(library);
    let start = Instant::now();
    let mut told = start;
    for i in 0..wanted.n {
        let seed = compare::seed_of(wanted.seed, i);
        if let Err(fault) = compare::one(&library, seed) {
            eprintln!("long: difference in case {i} (seed {seed}): {}", fault.what);
            let _ = std::io::stdout().lock().write_all(&fault.input);
            return ExitCode::from(1);
        }
        if told.elapsed() >= Duration::from_secs(2) {
            told = Instant::now();
            eprintln!(
                "long: {} of {} compared, {} s",
                i + 1,
                wanted.n,
                start.elapsed().as_secs()
            );
        }
    }
    println!(
        "long: {} compared, no difference, seed {}, {} s",
        wanted.n,
        wanted.seed,
        start.elapsed().as_secs()
    );
    ExitCode::SUCCESS
}

fn main() -> ExitCode {
    match arguments() {
        Some(wanted) => run(&wanted),
        None => {
            eprintln!("usage: long [--n CASES] [--seed SEED]");
            ExitCode::from(2)
        }
    }
}
