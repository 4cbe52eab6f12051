//! Reading with widths, compared with the reference.

use super::{Caller, figures};
use crate::helpers::payload::refused;
use crate::kit::{Suite, hex};
use reference::unit::{self, MOST_OBUS, total_bytes};
use std::cmp::Ordering;

/// How a room stands to its need.
pub const STANDS: [Ordering; 3] = [Ordering::Less, Ordering::Equal, Ordering::Greater];

pub fn rooms_label(stands: [Ordering; 3]) -> String {
    let [bytes, lengths, widths] = stands.map(|stand| match stand {
        Ordering::Less => "short",
        Ordering::Equal => "exact",
        Ordering::Greater => "more",
    });
    format!("rooms: bytes {bytes}, lengths {lengths}, widths {widths}")
}

impl Caller {
    /// Reads a unit with widths into rooms for bytes, lengths and widths, and compares all that came
    /// of it with the reference.
    pub fn read_widths(
        &mut self,
        suite: &mut Suite,
        carried: &[u8],
        (bytes_room, lengths_room, widths_room): (usize, usize, usize),
        more: &[&str],
    ) {
        self.given.give(carried);
        let got = av1ts::unit::read_unit_widths(
            self.given.part(),
            self.lent.lend(bytes_room),
            self.lent_lengths.lend(lengths_room),
            self.lent_widths.lend(widths_room),
        );
        let mut labels: Vec<String> = more.iter().map(|label| label.to_string()).collect();
        let mut bytes = Vec::new();
        let mut lengths = Vec::new();
        let mut widths = Vec::new();
        match unit::accept(carried) {
            Err(refusal) => labels.push(refusal.condition.to_string()),
            Ok(obus) => {
                let count = obus.len();
                labels.push(rooms_label([
                    bytes_room.cmp(&total_bytes(&obus)),
                    lengths_room.cmp(&count),
                    widths_room.cmp(&count),
                ]));
                if widths_room == 0 {
                    labels.push("widths: no room".to_string());
                } else if widths_room + 1 == count {
                    labels.push("widths: one short".to_string());
                }
            }
        }
        let answer = match unit::read_widths(carried, bytes_room, lengths_room, widths_room) {
            Err(refusal) => refused(&refusal),
            Ok(obus) => {
                for obu in &obus {
                    bytes.extend_from_slice(&obu.bytes);
                    lengths.push(obu.bytes.len());
                    widths.push(obu.width);
                }
                figures(&obus)
            }
        };
        let outputs = [
            self.lent.holds(&bytes),
            self.lent_lengths.holds(&lengths),
            self.lent_widths.holds(&widths),
        ];
        let passed = got == answer && outputs == [true; 3] && self.given.unchanged(carried);
        let labels: Vec<&str> = labels.iter().map(|label| label.as_str()).collect();
        suite.case(&labels, passed, || {
            format!(
                "read with widths, rooms {bytes_room}, {lengths_room} and {widths_room}: expected \
                 {answer:?} and widths {widths:?}, got {got:?}, outputs right: {outputs:?}; input {}",
                hex(carried)
            )
        });
    }

    /// Reads a unit with widths into rooms that are large enough for whatever it holds.
    pub fn read_widths_wide(&mut self, suite: &mut Suite, carried: &[u8], more: &[&str]) {
        let rooms = (carried.len(), MOST_OBUS, MOST_OBUS);
        self.read_widths(suite, carried, rooms, more);
    }
}
