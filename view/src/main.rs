//! What `./pairs` shows to people beside the proved program's answer: a refusal in words, and the page.
//!
//!     view explain NAME SHEETFILE NUMBER PLACE          the refusal in words, to standard output
//!     view page NAME SHEETFILE LISTINGFILE OUTFILE      the page of a sheet and its listing, into OUTFILE
//!
//! NAME is what people call the sheet; it is shown, and never opened. Status: 0 done, 2 wrong use, 3 something failed.
mod explain;
mod page;
mod whole;

use std::env;
use std::ffi::{OsStr, OsString};
use std::fs::{self, File};
use std::io::{self, Read, Write};
use std::path::Path;
use std::process::ExitCode;

use explain::sheet::CEILING;

const USAGE: &str = "usage: view explain NAME SHEETFILE NUMBER PLACE
       view page NAME SHEETFILE LISTINGFILE OUTFILE";

fn main() -> ExitCode {
    let words: Vec<OsString> = env::args_os().skip(1).collect();
    let words: Vec<&OsStr> = words.iter().map(OsString::as_os_str).collect();
    let done = match words.as_slice() {
        [task, name, sheet, number, place] if *task == "explain" => {
            match (count(number), count(place)) {
                (Some(number), Some(place)) => explain(name, sheet, number, place),
                _ => return wrong_use(),
            }
        }
        [task, name, sheet, listing, out] if *task == "page" => page(name, sheet, listing, out),
        _ => return wrong_use(),
    };
    match done {
        Ok(()) => ExitCode::SUCCESS,
        Err(text) => told(&text, 3),
    }
}

fn wrong_use() -> ExitCode {
    told(USAGE, 2)
}

/// Ends with a status and a text on standard error. Where that text cannot be written, the status has to do.
fn told(text: &str, status: u8) -> ExitCode {
    let _ = writeln!(io::stderr(), "{text}");
    ExitCode::from(status)
}

fn count(word: &OsStr) -> Option<usize> {
    let number: u16 = word.to_str()?.parse().ok()?;
    Some(number.into())
}

fn explain(name: &OsStr, file: &OsStr, number: usize, place: usize) -> Result<(), String> {
    // A sheet that can be read no more is explained like one that has changed: in words alone.
    let (sheet, size) = start_of(Path::new(file)).unwrap_or_default();
    let text = explain::explain(&name.to_string_lossy(), &sheet, size, number, place);
    io::stdout()
        .write_all(text.as_bytes())
        .map_err(|error| format!("cannot write to standard output: {error}"))
}

/// As much of a file as a sheet may have and one byte more, and the file's size.
fn start_of(file: &Path) -> io::Result<(Vec<u8>, u64)> {
    let opened = File::open(file)?;
    let size = opened.metadata()?.len();
    let mut bytes = Vec::new();
    opened.take(CEILING + 1).read_to_end(&mut bytes)?;
    let size = size.max(bytes.len() as u64);
    Ok((bytes, size))
}

fn page(name: &OsStr, sheet: &OsStr, listing: &OsStr, out: &OsStr) -> Result<(), String> {
    let sheet = read(sheet)?;
    let listing = read(listing)?;
    let text = page::write(&name.to_string_lossy(), &sheet, &listing)?;
    whole::write(Path::new(out), text.as_bytes())
}

fn read(file: &OsStr) -> Result<Vec<u8>, String> {
    fs::read(file).map_err(|error| format!("cannot read {}: {error}", file.to_string_lossy()))
}
