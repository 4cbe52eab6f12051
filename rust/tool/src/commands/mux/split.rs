//! OBUs of a file, and the units that they make.

use crate::failure::{Failure, fail};
use crate::reading::obu;

/// The OBUs of a file in the low-overhead format, each of which has a size.
pub fn obus(bytes: &[u8]) -> Result<Vec<Vec<u8>>, Failure> {
    let mut found = Vec::new();
    let mut at = 0;
    while at < bytes.len() {
        let header = obu::read(&bytes[at..]);
        let end = match header.size {
            Some(size) => (at + header.content_at).checked_add(size as usize),
            None => return fail(format!("byte {at}: no OBU with a size")),
        };
        match end {
            Some(end) if end <= bytes.len() => {
                found.push(bytes[at..end].to_vec());
                at = end;
            }
            _ => return fail(format!("byte {at}: the OBU goes past the end")),
        }
    }
    Ok(found)
}

/// The units of the OBUs: each ends with the last OBU of its frame.
pub fn units(obus: &[Vec<u8>]) -> Vec<Vec<Vec<u8>>> {
    let mut found = Vec::new();
    let mut unit: Vec<Vec<u8>> = Vec::new();
    for (index, bytes) in obus.iter().enumerate() {
        unit.push(bytes.clone());
        if ends(&unit, &obus[index + 1..]) {
            found.push(std::mem::take(&mut unit));
        }
    }
    if !unit.is_empty() {
        found.push(unit);
    }
    found
}

/// Whether a frame is whole: no tile group follows before something else does.
fn ends(unit: &[Vec<u8>], rest: &[Vec<u8>]) -> bool {
    let header = unit.iter().map(|bytes| (obu::read(bytes), bytes));
    let frame = header
        .into_iter()
        .find(|(header, _)| matches!(header.kind, 3 | 6));
    match frame {
        None => false,
        Some((header, bytes)) if header.kind == 6 || header.shows_again(bytes) => true,
        Some(_) => {
            let kinds = rest.iter().map(|bytes| obu::read(bytes).kind);
            let next = kinds.into_iter().find(|kind| !matches!(kind, 7 | 15));
            next != Some(4)
        }
    }
}
