//! The queue of units to send: "a queue of up to 8 units, each with PTS, DTS and carried bytes, by
//! operations add, drop oldest, send and clear".

pub mod send;

use crate::refusal::Refusal;
use crate::unit;

/// "a queue of up to 8 units"
pub const MOST_QUEUED: usize = 8;

/// "a time above 33 bits"
pub const MOST_TIME: u64 = (1 << 33) - 1;

/// A unit that is queued. "A unit comes with a random-access mark".
#[derive(Clone, Debug, PartialEq, Eq)]
pub struct Queued {
    pub bytes: Vec<u8>,
    pub pts: u64,
    pub dts: u64,
    pub marked: bool,
}

/// The units, oldest first.
#[derive(Clone, Debug, Default, PartialEq, Eq)]
pub struct Queue {
    pub units: Vec<Queued>,
}

/// The conditions of 50, of 8 for the store, and those of 51 that are not of reading.
pub const FULL: &str = "50: queue full";
pub const PTS_TOO_LONG: &str = "51: PTS above 33 bits";
pub const DTS_TOO_LONG: &str = "51: DTS above 33 bits";
pub const STORE_TOO_SHORT: &str = "8: store too short";

/// 51 by what reading refuses.
pub const NOT_ACCEPTED: &str = "51: unit not accepted by reading";

impl Queue {
    /// "Unit bytes stand back to back from the front of a lent store, oldest first".
    pub fn stored(&self) -> Vec<u8> {
        let parts: Vec<&[u8]> = self.units.iter().map(|unit| &unit.bytes[..]).collect();
        parts.concat()
    }

    /// "every operation, refused or not, keeps it equal to the sum of the queued lengths"
    pub fn total(&self) -> u64 {
        self.units.iter().map(|unit| unit.bytes.len() as u64).sum()
    }

    /// "Refusals: 50 queue full, 51 unit not accepted by reading or a time above 33 bits, .. then 8
    /// for store"; "a refusal changes neither queue, store, ..".
    pub fn add(&mut self, unit: Queued, store_room: usize) -> Result<(), Refusal> {
        if self.units.len() == MOST_QUEUED {
            return Err(Refusal::new(50, 0, FULL));
        }
        if unit::accept(&unit.bytes).is_err() {
            return Err(Refusal::new(51, 0, NOT_ACCEPTED));
        }
        if unit.pts > MOST_TIME {
            return Err(Refusal::new(51, 0, PTS_TOO_LONG));
        }
        if unit.dts > MOST_TIME {
            return Err(Refusal::new(51, 0, DTS_TOO_LONG));
        }
        if self.stored().len() + unit.bytes.len() > store_room {
            return Err(Refusal::new(8, 0, STORE_TOO_SHORT));
        }
        self.units.push(unit);
        Ok(())
    }

    /// "drop on an empty queue says so and changes nothing": answers whether there was one to drop.
    pub fn drop_oldest(&mut self) -> bool {
        if self.units.is_empty() {
            return false;
        }
        self.units.remove(0);
        true
    }

    pub fn clear(&mut self) {
        self.units.clear();
    }
}
