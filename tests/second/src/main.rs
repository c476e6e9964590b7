//! Reads a sheet from standard input and prints its listing or the refusal.

use std::io::{self, Read, Write};
use std::process::ExitCode;

fn main() -> ExitCode {
    let mut bytes = Vec::new();
    if let Err(e) = io::stdin().lock().read_to_end(&mut bytes) {
        eprintln!("second: cannot read standard input: {e}");
        return ExitCode::from(2);
    }
    let text = second::printed(&bytes);
    if let Err(e) = io::stdout().lock().write_all(&text) {
        eprintln!("second: cannot write: {e}");
        return ExitCode::from(2);
    }
    ExitCode::SUCCESS
}
