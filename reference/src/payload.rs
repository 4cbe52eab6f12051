//! Payload bytes: escaping and unescaping one OBU (000, 3.2).

use crate::refusal::{OUTPUT_TOO_SHORT, Refusal};

/// "Both take up to 1,048,576 (escaping) or 1,572,864 (unescaping) bytes."
pub const ESCAPE_LIMIT: usize = 1_048_576;
pub const UNESCAPE_LIMIT: usize = 1_572_864;

/// "A payload is legal if at no place 00 00 00, 00 00 01 or 00 00 02 stands in it, and no four
/// bytes 00 00 03 x with x above 3."
fn forbidden_at(payload: &[u8], place: usize) -> Option<&'static str> {
    match payload[place..] {
        [0, 0, 0, ..] => Some("10: 00 00 00"),
        [0, 0, 1, ..] => Some("10: 00 00 01"),
        [0, 0, 2, ..] => Some("10: 00 00 02"),
        [0, 0, 3, x, ..] if x > 3 => Some("10: 00 00 03 then above 3"),
        _ => None,
    }
}

/// The lowest place at which a forbidden sequence begins, and which one it is.
pub fn first_forbidden(payload: &[u8]) -> Option<(usize, &'static str)> {
    for place in 0..payload.len() {
        if let Some(condition) = forbidden_at(payload, place) {
            return Some((place, condition));
        }
    }
    None
}

/// The bytes of an OBU and the number of bytes dropped to get them.
#[derive(Clone, Debug, PartialEq, Eq)]
pub struct Unescaped {
    pub obu: Vec<u8>,
    pub dropped: usize,
}

/// "Unescaping goes left to right: where the next three payload bytes are 00 00 03, give 00 00 and
/// drop the 03; otherwise give one byte."
pub fn unescaped(payload: &[u8]) -> Unescaped {
    let mut obu = Vec::new();
    let mut dropped = 0;
    let mut next = 0;
    while next < payload.len() {
        if payload[next..].starts_with(&[0, 0, 3]) {
            obu.push(0);
            obu.push(0);
            dropped += 1;
            next += 3;
        } else {
            obu.push(payload[next]);
            next += 1;
        }
    }
    Unescaped { obu, dropped }
}

/// "Escaping gives the OBU's bytes and puts a 03 before a byte of 0 to 3 when the two bytes written
/// last are 00 00; an inserted 03 ends a run of zeros. Nothing is put at the end."
pub fn escaped(obu: &[u8]) -> Vec<u8> {
    let mut written = Vec::new();
    for &byte in obu {
        if byte <= 3 && written.ends_with(&[0, 0]) {
            written.push(3);
        }
        written.push(byte);
    }
    written
}

/// Escaping one OBU into a room: "more is refusal 2, tried before 10; 8 comes last".
pub fn escape(obu: &[u8], room: usize) -> Result<Vec<u8>, Refusal> {
    if obu.len() > ESCAPE_LIMIT {
        return Err(Refusal::new(2, 0, "2: over 1,048,576 bytes to escape"));
    }
    let written = escaped(obu);
    if written.len() > room {
        return Err(Refusal::new(8, 0, OUTPUT_TOO_SHORT));
    }
    Ok(written)
}

/// Unescaping one payload into a room, with the same order of tries; the place of 10 is "where the
/// first forbidden sequence begins".
pub fn unescape(payload: &[u8], room: usize) -> Result<Unescaped, Refusal> {
    if payload.len() > UNESCAPE_LIMIT {
        return Err(Refusal::new(2, 0, "2: over 1,572,864 bytes to unescape"));
    }
    if let Some((place, condition)) = first_forbidden(payload) {
        return Err(Refusal::new(10, place, condition));
    }
    let answer = unescaped(payload);
    if answer.obu.len() > room {
        return Err(Refusal::new(8, 0, OUTPUT_TOO_SHORT));
    }
    Ok(answer)
}
