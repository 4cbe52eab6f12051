//! The editions that the check of a segment takes: the current one, and the draft of 2018 (001).

use crate::descriptor::REGISTRATION;

/// "The check takes an edition, 0 current or 1 draft."
#[derive(Clone, Copy, Debug, PartialEq, Eq)]
pub enum Edition {
    Current,
    Draft,
}

/// "in these recordings the first descriptor is 05 04 and that identifier", "'AV1 ', 41 56 31 20".
pub const DRAFT_REGISTRATION: [u8; 6] = [0x05, 0x04, 0x41, 0x56, 0x31, 0x20];

/// "the unit's two times then being 8,589,934,592, which no 33-bit time equals"
pub const NO_TIME: u64 = 8_589_934_592;

impl Edition {
    pub fn of(number: u64) -> Option<Edition> {
        match number {
            0 => Some(Edition::Current),
            1 => Some(Edition::Draft),
            _ => None,
        }
    }

    /// The registration that the edition knows, which is its own alone.
    pub fn registration(self) -> [u8; 6] {
        match self {
            Edition::Current => REGISTRATION,
            Edition::Draft => DRAFT_REGISTRATION,
        }
    }
}
