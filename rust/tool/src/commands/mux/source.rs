//! The files that are put into a segment.

use super::split;
use crate::args::shown;
use crate::failure::{Failure, fail};
use crate::files;
use crate::library::{self, Refused};
use std::ffi::OsStr;

/// A unit, as it is carried, with the time of its temporal unit where the file has one.
pub struct Unit {
    pub bytes: Vec<u8>,
    /// Ticks of 90 kHz since the file's time 0.
    pub time: Option<u64>,
    /// Whether it is the first of its temporal unit, where the file says so.
    pub first: Option<bool>,
}

/// The units of a file, or the refusal of one of them.
type Read = Result<Vec<Unit>, (usize, Refused)>;

const MOST_BYTES: u64 = 1 << 30;

pub fn read(name: &OsStr) -> Result<Read, Failure> {
    let bytes = files::read(name, MOST_BYTES)?;
    let read = if bytes.starts_with(&[0, 0, 1]) {
        Ok(Ok(vec![Unit {
            bytes,
            time: None,
            first: None,
        }]))
    } else if bytes.starts_with(b"DKIF") {
        ivf(&bytes)
    } else {
        split::obus(&bytes).map(|obus| written(&obus, None, None))
    };
    read.map_err(|failure| Failure(format!("{}: {}", shown(name), failure.0)))
}

/// The units of some OBUs, as they are carried.
fn written(obus: &[Vec<u8>], time: Option<u64>, first: Option<bool>) -> Read {
    let mut units = Vec::new();
    for (index, unit) in split::units(obus).iter().enumerate() {
        let bytes = library::write_unit(unit).map_err(|why| (index, why))?;
        units.push(Unit {
            bytes,
            time,
            first: first.map(|first| first && index == 0),
        });
    }
    Ok(units)
}

fn ivf(bytes: &[u8]) -> Result<Read, Failure> {
    let word = |at: usize| {
        let four = bytes.get(at..at + 4);
        four.map(|four| u64::from(u32::from_le_bytes([four[0], four[1], four[2], four[3]])))
    };
    let (rate, scale) = match (word(16), word(20)) {
        (Some(rate), Some(scale)) if rate > 0 && scale > 0 => (rate, scale),
        _ => return fail("no time base in the IVF header"),
    };
    let mut units: Vec<Unit> = Vec::new();
    let mut at = 32;
    while at < bytes.len() {
        let (size, time) = match (word(at), word(at + 4), word(at + 8)) {
            (Some(size), Some(low), Some(high)) => (size as usize, high << 32 | low),
            _ => return fail(format!("byte {at}: an IVF frame header is cut short")),
        };
        let frame = match bytes.get(at + 12..at + 12 + size) {
            Some(frame) => frame,
            None => return fail(format!("byte {at}: an IVF frame is cut short")),
        };
        let ticks = u128::from(time) * 90_000 * u128::from(scale) / u128::from(rate);
        match written(&split::obus(frame)?, Some(ticks as u64), Some(true)) {
            Ok(read) => units.extend(read),
            Err((index, why)) => return Ok(Err((units.len() + index, why))),
        }
        at += 12 + size;
    }
    Ok(Ok(units))
}
