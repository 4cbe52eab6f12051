//! One access unit: reading, writing and checking it.

use crate::obu::Kind;
use crate::refusal::{OUTPUT_TOO_SHORT, Refusal};
use crate::{obu, order, payload};
use std::ops::Range;

/// "64 OBUs in an access unit; OBUs of a unit together 1,048,576 bytes; a unit as carried 1,573,056
/// bytes"
pub const MOST_OBUS: usize = 64;
pub const MOST_BYTES: usize = 1_048_576;
pub const MOST_CARRIED: usize = 1_573_056;

/// "A tsOBU is 00 00 01 and then its payload."
pub const START_CODE: [u8; 3] = [0, 0, 1];

/// The places of all start codes: "A carried unit begins with 00 00 01. Each later 00 00 01 begins
/// the next tsOBU".
pub fn start_codes(unit: &[u8]) -> Vec<usize> {
    (0..unit.len())
        .filter(|&place| unit[place..].starts_with(&START_CODE))
        .collect()
}

/// "a payload runs to the next start code or the end. Zeros before a start code belong to the
/// payload."
pub fn payloads(unit: &[u8]) -> Vec<Range<usize>> {
    let places = start_codes(unit);
    let mut parts = Vec::new();
    for (index, place) in places.iter().enumerate() {
        let end = if index + 1 < places.len() {
            places[index + 1]
        } else {
            unit.len()
        };
        parts.push(place + START_CODE.len()..end);
    }
    parts
}

/// An OBU that was read from a unit.
#[derive(Clone, Debug, PartialEq, Eq)]
pub struct ReadObu {
    pub bytes: Vec<u8>,
    pub kind: Kind,
    /// "how many bytes the old one took", of its size
    pub width: usize,
    pub dropped: usize,
}

/// "Reading tries: 2 for the carried length; 9; 1; then for each tsOBU in turn 3, 10, 4, 5, 6; 2 for
/// the OBUs' sum; 7; 8." And 42 "after 6 for that OBU". All of it but 8; this is also the check of a
/// unit.
pub fn accept(unit: &[u8]) -> Result<Vec<ReadObu>, Refusal> {
    if unit.len() > MOST_CARRIED {
        return Err(Refusal::new(2, 0, "2: over 1,573,056 bytes as carried"));
    }
    if !unit.starts_with(&START_CODE) {
        return Err(Refusal::new(9, 0, "9: no start code at the head"));
    }
    let parts = payloads(unit);
    if parts.len() > MOST_OBUS {
        return Err(Refusal::new(1, 0, "1: more than 64 OBUs"));
    }
    let mut obus = Vec::new();
    for (index, part) in parts.into_iter().enumerate() {
        let payload = &unit[part];
        if payload.is_empty() {
            return Err(Refusal::new(3, index, "3: no bytes"));
        }
        if let Some((_, condition)) = payload::first_forbidden(payload) {
            return Err(Refusal::new(10, index, condition));
        }
        let unescaped = payload::unescaped(payload);
        let checked = obu::check(&unescaped.obu, index)?;
        obus.push(ReadObu {
            bytes: unescaped.obu,
            kind: checked.kind,
            width: checked.width,
            dropped: unescaped.dropped,
        });
    }
    if total_bytes(&obus) > MOST_BYTES {
        return Err(Refusal::new(2, 0, "2: over 1,048,576 bytes of OBUs"));
    }
    let kinds: Vec<Kind> = obus.iter().map(|obu| obu.kind).collect();
    order::check(&kinds)?;
    Ok(obus)
}

pub fn total_bytes(obus: &[ReadObu]) -> usize {
    obus.iter().map(|obu| obu.bytes.len()).sum()
}

pub fn total_dropped(obus: &[ReadObu]) -> usize {
    obus.iter().map(|obu| obu.dropped).sum()
}

/// Reading into rooms: 8 is "output too short (bytes or lengths)".
pub fn read(unit: &[u8], bytes_room: usize, lengths_room: usize) -> Result<Vec<ReadObu>, Refusal> {
    let obus = accept(unit)?;
    if total_bytes(&obus) > bytes_room || obus.len() > lengths_room {
        return Err(Refusal::new(8, 0, OUTPUT_TOO_SHORT));
    }
    Ok(obus)
}

/// Reading into rooms, that of widths too: one width for each OBU.
pub fn read_widths(
    unit: &[u8],
    bytes_room: usize,
    lengths_room: usize,
    widths_room: usize,
) -> Result<Vec<ReadObu>, Refusal> {
    let obus = read(unit, bytes_room, lengths_room)?;
    if obus.len() > widths_room {
        return Err(Refusal::new(8, 0, OUTPUT_TOO_SHORT));
    }
    Ok(obus)
}

/// "Writing takes OBUs back to back and their lengths, and tries 1, 2, then for each OBU 3, 4, 5, 6;
/// then 7; then 8." And 42 after 6. All of it but 8; the answer is the string that writing gives:
/// "00 00 01 and the escaped OBU, for each in turn".
pub fn written(obus: &[u8], lengths: &[usize]) -> Result<Vec<u8>, Refusal> {
    if lengths.is_empty() {
        return Err(Refusal::new(1, 0, "1: no OBU"));
    }
    if lengths.len() > MOST_OBUS {
        return Err(Refusal::new(1, 0, "1: more than 64 OBUs"));
    }
    // Lengths are added as whole numbers.
    let sum: u128 = lengths.iter().map(|&length| length as u128).sum();
    if sum != obus.len() as u128 {
        return Err(Refusal::new(2, 0, "2: lengths do not add up"));
    }
    if obus.len() > MOST_BYTES {
        return Err(Refusal::new(2, 0, "2: over 1,048,576 bytes of OBUs"));
    }
    let mut kinds = Vec::new();
    let mut carried = Vec::new();
    let mut rest = obus;
    for (index, &length) in lengths.iter().enumerate() {
        let (obu, after) = rest.split_at(length);
        rest = after;
        kinds.push(obu::check(obu, index)?.kind);
        carried.extend_from_slice(&START_CODE);
        carried.extend(payload::escaped(obu));
    }
    order::check(&kinds)?;
    Ok(carried)
}

/// Writing into a room.
pub fn write(obus: &[u8], lengths: &[usize], room: usize) -> Result<Vec<u8>, Refusal> {
    let carried = written(obus, lengths)?;
    if carried.len() > room {
        return Err(Refusal::new(8, 0, OUTPUT_TOO_SHORT));
    }
    Ok(carried)
}
