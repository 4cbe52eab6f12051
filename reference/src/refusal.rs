//! Refusals.

/// A refusal: its number, its place, and which of the number's conditions held.
#[derive(Clone, Copy, Debug, PartialEq, Eq)]
pub struct Refusal {
    pub number: u64,
    pub place: u64,
    /// The number and the condition, as text.
    pub condition: &'static str,
}

impl Refusal {
    pub fn new(number: u64, place: usize, condition: &'static str) -> Refusal {
        Refusal {
            number,
            place: place as u64,
            condition,
        }
    }
}

pub const OUTPUT_TOO_SHORT: &str = "8: output too short";
