//! Salvaging a damaged unit.
//!
//! "Split the input at each 00 00 01, drop what precedes the first (everything, where there is none),
//! keep exactly the tsOBUs that pass 3, 10, 4, 5, 6, 42 and then 2 for an OBU above 1,048,576 bytes,
//! rewrite each in the writer's form, and list each original tsOBU as kept, kept with a closing 03
//! removed, or dropped with its number; also the count of leading bytes dropped. The answer says
//! whether reading accepts the result."

use crate::refusal::{OUTPUT_TOO_SHORT, Refusal};
use crate::unit::{self, MOST_BYTES, MOST_CARRIED, MOST_OBUS, START_CODE};
use crate::{obu, payload};

/// What came of a tsOBU of the input.
#[derive(Clone, Copy, Debug, PartialEq, Eq)]
pub enum Mark {
    Kept,
    /// The payload ended in 00 00 03.
    ClosingRemoved,
    Dropped(Refusal),
}

impl Mark {
    /// The mark as a number: 0 kept, 1 kept with a closing 03 removed, else the refusal's.
    pub fn number(&self) -> u8 {
        match self {
            Mark::Kept => 0,
            Mark::ClosingRemoved => 1,
            Mark::Dropped(refusal) => refusal.number as u8,
        }
    }
}

/// What salvaging gives.
#[derive(Clone, Debug, PartialEq, Eq)]
pub struct Salvaged {
    pub bytes: Vec<u8>,
    pub marks: Vec<Mark>,
    pub leading: usize,
    /// No refusal of reading but 8 applies to the bytes.
    pub accepted: bool,
}

impl Salvaged {
    pub fn kept(&self) -> usize {
        self.marks
            .iter()
            .filter(|mark| !matches!(mark, Mark::Dropped(_)))
            .count()
    }
}

/// The OBU of a payload that passes "3, 10, 4, 5, 6, 42 and then 2 for an OBU above 1,048,576 bytes".
fn passing(payload: &[u8], index: usize) -> Result<Vec<u8>, Refusal> {
    if payload.is_empty() {
        return Err(Refusal::new(3, index, "3: no bytes"));
    }
    if let Some((_, condition)) = payload::first_forbidden(payload) {
        return Err(Refusal::new(10, index, condition));
    }
    let obu = payload::unescaped(payload).obu;
    obu::check(&obu, index)?;
    if obu.len() > MOST_BYTES {
        return Err(Refusal::new(2, index, "2: an OBU over 1,048,576 bytes"));
    }
    Ok(obu)
}

/// "Refusals: 2 for carried length, 1 for more than 64 tsOBUs, 8 last." This is all but 8.
pub fn salvaged(input: &[u8]) -> Result<Salvaged, Refusal> {
    if input.len() > MOST_CARRIED {
        return Err(Refusal::new(2, 0, "2: over 1,573,056 bytes as carried"));
    }
    let parts = unit::payloads(input);
    if parts.len() > MOST_OBUS {
        return Err(Refusal::new(1, 0, "1: more than 64 tsOBUs"));
    }
    let leading = match parts.first() {
        Some(first) => first.start - START_CODE.len(),
        None => input.len(),
    };
    let mut bytes = Vec::new();
    let mut marks = Vec::new();
    for (index, part) in parts.into_iter().enumerate() {
        let payload = &input[part];
        marks.push(match passing(payload, index) {
            Err(refusal) => Mark::Dropped(refusal),
            Ok(obu) => {
                // "Writing gives 00 00 01 and the escaped OBU".
                bytes.extend_from_slice(&START_CODE);
                bytes.extend(payload::escaped(&obu));
                if payload.ends_with(&[0, 0, 3]) {
                    Mark::ClosingRemoved
                } else {
                    Mark::Kept
                }
            }
        });
    }
    let accepted = unit::accept(&bytes).is_ok();
    Ok(Salvaged {
        bytes,
        marks,
        leading,
        accepted,
    })
}

/// Salvaging into rooms: 8 where the bytes or the marks do not fit.
pub fn salvage(input: &[u8], bytes_room: usize, marks_room: usize) -> Result<Salvaged, Refusal> {
    let salvaged = salvaged(input)?;
    if salvaged.bytes.len() > bytes_room || salvaged.marks.len() > marks_room {
        return Err(Refusal::new(8, 0, OUTPUT_TOO_SHORT));
    }
    Ok(salvaged)
}
