//! Files that are read and written. `-` is standard input or standard output.

use crate::args::shown;
use crate::failure::{Failure, fail};
use crate::screen::Screen;
use std::ffi::OsStr;
use std::fs::{self, File, OpenOptions};
use std::io::{self, Read, Seek, SeekFrom, Write};
use std::path::Path;

/// Part of a file.
pub struct Part {
    pub bytes: Vec<u8>,
    /// How long the whole file is; of standard input it is known only where all of it was read.
    pub whole: Option<u64>,
}

/// What stands in a file from a byte on, at most so many bytes.
pub fn read_part(name: &OsStr, from: u64, most: u64) -> Result<Part, Failure> {
    if name == "-" {
        return of_input(from, most).map_err(|error| failed("standard input", &error));
    }
    of_file(Path::new(name), from, most).map_err(|error| failed(&shown(name), &error))
}

/// A whole file, which is not to be longer than `most`.
pub fn read(name: &OsStr, most: u64) -> Result<Vec<u8>, Failure> {
    let part = read_part(name, 0, most.saturating_add(1))?;
    if part.bytes.len() as u64 > most {
        return fail(format!("{}: longer than {most} bytes", shown(name)));
    }
    Ok(part.bytes)
}

fn failed(name: &str, error: &io::Error) -> Failure {
    Failure(format!("{name}: {error}"))
}

fn of_input(from: u64, most: u64) -> io::Result<Part> {
    let mut input = io::stdin().lock();
    let skipped = io::copy(&mut input.by_ref().take(from), &mut io::sink())?;
    let mut bytes = Vec::new();
    input.by_ref().take(most).read_to_end(&mut bytes)?;
    let whole = if (bytes.len() as u64) < most {
        Some(skipped + bytes.len() as u64)
    } else {
        None
    };
    Ok(Part { bytes, whole })
}

fn of_file(path: &Path, from: u64, most: u64) -> io::Result<Part> {
    let mut file = File::open(path)?;
    let about = file.metadata()?;
    if about.is_dir() {
        return Err(io::Error::new(io::ErrorKind::Other, "is a folder"));
    }
    if about.is_file() {
        file.seek(SeekFrom::Start(from))?;
    } else {
        io::copy(&mut (&file).take(from), &mut io::sink())?;
    }
    let mut bytes = Vec::new();
    file.take(most).read_to_end(&mut bytes)?;
    let whole = if about.is_file() {
        Some(about.len())
    } else {
        None
    };
    Ok(Part { bytes, whole })
}

/// Says that a file stands in the way, where it does and may not be overwritten.
pub fn free(name: &OsStr, force: bool) -> Result<(), Failure> {
    if force || name == "-" || fs::symlink_metadata(name).is_err() {
        return Ok(());
    }
    fail(format!(
        "{} is there already; --force overwrites it",
        shown(name)
    ))
}

/// Writes a file, or standard output.
pub fn write(name: &OsStr, bytes: &[u8], force: bool, screen: &mut Screen) -> Result<(), Failure> {
    if name == "-" {
        return screen.bytes(bytes);
    }
    free(name, force)?;
    let written = OpenOptions::new()
        .write(true)
        .create(true)
        .create_new(!force)
        .truncate(true)
        .open(name)
        .and_then(|mut file| file.write_all(bytes));
    written.map_err(|error| failed(&shown(name), &error))
}
