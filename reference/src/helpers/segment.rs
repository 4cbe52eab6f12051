//! The check of a segment, compared with the reference, and what suites of segments share.

pub mod draft;
pub mod faults;
pub mod make;
pub mod pairs;
pub mod set_up;

use crate::helpers::under_test::{self, SegmentOutputs, segment_answer};
use crate::kit::{Given, Lent, Suite, right};
use reference::packet;
use reference::refusal::Refusal;
use reference::segment::{self, Accepted, Rooms, Unit};

/// The reference's verdict.
pub type Verdict = Result<Accepted, Refusal>;

/// Whether a verdict is a refusal by a number.
pub fn refused_by(verdict: &Verdict, number: u64) -> bool {
    matches!(verdict, Err(refusal) if refusal.number == number)
}

/// Whether a verdict is a refusal by a number at a place.
pub fn refused_at(verdict: &Verdict, number: u64, place: usize) -> bool {
    let at = (number, place as u64);
    matches!(verdict, Err(refusal) if (refusal.number, refusal.place) == at)
}

/// The buffers of one caller, used again from call to call.
#[derive(Default)]
pub struct Caller {
    given: Given<u8>,
    outputs: Outputs,
}

impl Caller {
    /// Checks a segment into rooms and compares all that came of it with the reference.
    pub fn check(&mut self, suite: &mut Suite, segment: &[u8], rooms: Rooms, more: &[&str]) {
        self.check_as(suite, segment, rooms, more, |_| true);
    }

    /// The same with room for whatever the segment holds.
    pub fn check_wide(&mut self, suite: &mut Suite, segment: &[u8], more: &[&str]) {
        self.check(suite, segment, wide(segment), more);
    }

    /// With that room, where the reference's verdict must also be the one intended.
    pub fn check_wide_as(
        &mut self,
        suite: &mut Suite,
        segment: &[u8],
        more: &[&str],
        intended: impl FnOnce(&Verdict) -> bool,
    ) {
        self.check_as(suite, segment, wide(segment), more, intended);
    }

    /// Into rooms, where the reference's verdict must also be the one intended.
    pub fn check_as(
        &mut self,
        suite: &mut Suite,
        segment: &[u8],
        rooms: Rooms,
        more: &[&str],
        intended: impl FnOnce(&Verdict) -> bool,
    ) {
        self.compare(suite, None, segment, rooms, more, intended);
    }

    /// The same by the function that takes an edition.
    pub fn check_edition(
        &mut self,
        suite: &mut Suite,
        edition: u64,
        segment: &[u8],
        rooms: Rooms,
        more: &[&str],
        intended: impl FnOnce(&Verdict) -> bool,
    ) {
        self.compare(suite, Some(edition), segment, rooms, more, intended);
    }

    fn compare(
        &mut self,
        suite: &mut Suite,
        edition: Option<u64>,
        segment: &[u8],
        rooms: Rooms,
        more: &[&str],
        intended: impl FnOnce(&Verdict) -> bool,
    ) {
        self.given.give(segment);
        let outputs = self.outputs.lend(rooms);
        let got = under_test::check_segment(edition, self.given.part(), outputs);
        let verdict = segment::check_edition(edition.unwrap_or(0), segment, rooms);
        let expected = segment_answer(&verdict);
        let closing;
        let label = match &verdict {
            Ok(_) => "accepted",
            Err(refusal) if [1, 2, 3, 4, 5, 6, 7, 9, 10, 42].contains(&refusal.number) => {
                closing = format!("closing: {}", refusal.condition);
                &closing
            }
            Err(refusal) => refusal.condition,
        };
        let outputs = self.outputs.are_of(&verdict);
        let is_intended = intended(&verdict);
        let passed = got == expected && outputs && is_intended && self.given.unchanged(segment);
        suite.case(&[more, &[label]].concat(), passed, || {
            format!(
                "edition {edition:?}, {rooms:?}: expected {expected:?}, got {got:?}, outputs {}{}; {}",
                right(outputs),
                if is_intended { "" } else { ", not as intended" },
                packets_text(segment)
            )
        });
    }
}

/// The three outputs of a check.
#[derive(Default)]
pub struct Outputs {
    bytes: Lent<u8>,
    lengths: Lent<usize>,
    times: Lent<u64>,
}

impl Outputs {
    pub fn lend(&mut self, rooms: Rooms) -> SegmentOutputs<'_> {
        (
            self.bytes.lend(rooms.bytes),
            self.lengths.lend(rooms.lengths),
            self.times.lend(rooms.times),
        )
    }

    /// Whether they hold what a verdict leaves in them: "Carried units stand back to back in the
    /// output, with lengths, and PTS and DTS in turn", and a refusal "leaves zeros throughout the
    /// three outputs".
    pub fn are_of(&self, verdict: &Verdict) -> bool {
        let accepted = match verdict {
            Err(_) => {
                return self.bytes.cleared() && self.lengths.cleared() && self.times.cleared();
            }
            Ok(accepted) => accepted,
        };
        let (mut bytes, mut lengths, mut times) = (Vec::new(), Vec::new(), Vec::new());
        for unit in &accepted.units {
            bytes.extend_from_slice(&unit.bytes);
            lengths.push(unit.bytes.len());
            times.extend([unit.pts, unit.dts]);
        }
        self.bytes.holds(&bytes) && self.lengths.holds(&lengths) && self.times.holds(&times)
    }
}

/// Rooms for whatever a segment can hold, and some more.
pub fn wide(segment: &[u8]) -> Rooms {
    let packets = segment.len() / packet::SIZE;
    Rooms {
        bytes: segment.len(),
        lengths: packets.min(1025) + 2,
        times: 2 * packets.min(1025) + 3,
    }
}

/// Rooms exactly enough for units.
pub fn exact(units: &[Unit]) -> Rooms {
    Rooms {
        bytes: units.iter().map(|unit| unit.bytes.len()).sum(),
        lengths: units.len(),
        times: 2 * units.len(),
    }
}

/// The first bytes of each packet.
fn packets_text(segment: &[u8]) -> String {
    let mut text = format!("{} bytes:", segment.len());
    for (index, packet) in segment.chunks(packet::SIZE).enumerate() {
        if index == 40 {
            text.push_str(" ...");
            break;
        }
        text.push(' ');
        for byte in packet.iter().take(12) {
            text.push_str(&format!("{byte:02X}"));
        }
    }
    text
}

/// A closing's label for a condition of reading a unit.
pub fn closing_labels(conditions: &[&str]) -> Vec<String> {
    let mut labels = Vec::new();
    for condition in conditions {
        labels.push(format!("closing: {condition}"));
    }
    labels
}
