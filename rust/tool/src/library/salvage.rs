//! 2026-10: salvaging a damaged unit.

use super::{MOST_OBUS, Refused, refusal};

/// What was left of a unit.
pub struct Salvage {
    pub bytes: Vec<u8>,
    /// A mark a tsOBU: 0 kept, 1 kept with a closing 03 removed, else the number that dropped it.
    pub marks: Vec<u8>,
    pub kept: u64,
    /// How many bytes were dropped before the first start code.
    pub leading: u64,
    /// Whether reading accepts what is left.
    pub accepted: bool,
}

pub fn salvage(carried: &[u8]) -> Result<Salvage, Refused> {
    // What is kept is written in the shortest form, so it is never longer.
    let mut bytes = vec![0; carried.len()];
    let mut marks = vec![0; MOST_OBUS];
    let answer = av1ts::salvage::salvage(carried, &mut bytes, &mut marks);
    refusal(answer.number, answer.place)?;
    bytes.truncate(answer.bytes as usize);
    marks.truncate(answer.tsobus as usize);
    Ok(Salvage {
        bytes,
        marks,
        kept: answer.kept,
        leading: answer.leading,
        accepted: answer.accepted == 1,
    })
}
