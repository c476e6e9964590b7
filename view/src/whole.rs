//! A file written as a whole or not at all.
use std::fs::{self, OpenOptions};
use std::io::{self, Write};
use std::path::{Path, PathBuf};
use std::process;

/// Writes the bytes beside the file and then puts them in its place, so that nobody ever sees a half of them.
pub fn write(file: &Path, bytes: &[u8]) -> Result<(), String> {
    let failed = |error: io::Error| format!("cannot write {}: {error}", file.to_string_lossy());
    let place = place_of(file).map_err(failed)?;
    let part = beside(&place);
    let done = written(&part, bytes)
        .and_then(|()| like_the_old(&part, &place))
        .and_then(|()| fs::rename(&part, &place));
    if done.is_err() {
        // The first error is the one to tell; the part may not even be there.
        let _ = fs::remove_file(&part);
    }
    done.map_err(failed)
}

/// Where the bytes go: behind a link, the file that it leads to. A device or a folder is never replaced by a file, nor is a
/// link that leads nowhere.
fn place_of(file: &Path) -> io::Result<PathBuf> {
    match fs::metadata(file) {
        Ok(there) if there.is_file() => fs::canonicalize(file),
        Ok(_) => Err(io::Error::other("it is there, and is no regular file")),
        Err(error) if error.kind() == io::ErrorKind::NotFound => match fs::symlink_metadata(file) {
            Ok(_) => Err(io::Error::other("it is a link that leads nowhere")),
            Err(_) => Ok(file.to_path_buf()),
        },
        Err(error) => Err(error),
    }
}

/// A file that is written again stays readable for those who could read it, and for no others.
fn like_the_old(part: &Path, place: &Path) -> io::Result<()> {
    match fs::metadata(place) {
        Ok(old) => fs::set_permissions(part, old.permissions()),
        Err(_) => Ok(()),
    }
}

/// A name of our own in the same folder, since a file can only be moved into place within one file system.
fn beside(place: &Path) -> PathBuf {
    place.with_file_name(format!(".pairs.{}.part", process::id()))
}

fn written(part: &Path, bytes: &[u8]) -> io::Result<()> {
    let mut opened = OpenOptions::new().write(true).create_new(true).open(part)?;
    opened.write_all(bytes)?;
    opened.sync_all()
}
