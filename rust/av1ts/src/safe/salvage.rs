//! The good OBUs of a damaged unit.

use super::{MOST_CARRIED_BYTES, MOST_OBUS, Refusal, Refused};
use crate::salvage::salvage as call;

/// What became of a payload of the damaged unit.
#[derive(Clone, Copy, Debug, PartialEq, Eq)]
pub enum Mark {
    Kept,
    /// Kept, and a closing 03 removed.
    Trimmed,
    Dropped(Refusal),
}

/// What was salvaged of a unit.
#[derive(Clone, Debug, PartialEq, Eq)]
pub struct Salvaged {
    /// The OBUs that were kept, in the writer's form.
    pub carried: Vec<u8>,
    /// A mark for each payload of the damaged unit.
    pub marks: Vec<Mark>,
    /// The bytes in front of the first start code, which were dropped.
    pub leading: usize,
    /// Whether reading accepts the result.
    pub accepted: bool,
}

/// Keeps what is good of a damaged unit.
///
/// ```
/// use av1ts::{Mark, Refusal};
/// // a delimiter, an OBU with its forbidden bit set, and a frame
/// let salvaged = av1ts::salvage(&[0, 0, 1, 0x12, 0, 0, 0, 1, 0x80, 0, 0, 1, 0x30, 0xAA])?;
/// assert_eq!(salvaged.carried, [0, 0, 1, 0x12, 0, 0, 0, 1, 0x30, 0xAA]);
/// assert_eq!(salvaged.marks, [Mark::Kept, Mark::Dropped(Refusal::ObuHeader), Mark::Kept]);
/// assert!(salvaged.accepted);
/// # Ok::<(), av1ts::Refused>(())
/// ```
pub fn salvage(unit: &[u8]) -> Result<Salvaged, Refused> {
    let mut carried = vec![0; unit.len().min(MOST_CARRIED_BYTES)];
    let mut marks = [0; MOST_OBUS];
    let answer = call(unit, &mut carried, &mut marks);
    Refused::check(answer.number, answer.place)?;
    carried.truncate(answer.bytes as usize);
    let marks = marks[..answer.tsobus as usize].iter();
    Ok(Salvaged {
        carried,
        marks: marks.map(|&mark| Mark::of_number(mark)).collect(),
        leading: answer.leading as usize,
        accepted: answer.accepted != 0,
    })
}

impl Mark {
    fn of_number(mark: u8) -> Mark {
        match mark {
            0 => Mark::Kept,
            1 => Mark::Trimmed,
            number => Mark::Dropped(Refusal::of_number(number.into())),
        }
    }
}
