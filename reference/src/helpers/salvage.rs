//! Calls of salvage, each compared with the reference.

pub mod encoded;

use crate::helpers::under_test;
use crate::kit::{Given, Lent, Suite, hex, right};
use reference::salvage::{self, Mark, Salvaged};
use reference::unit::{self, MOST_OBUS, START_CODE};

/// What a tsOBU is dropped for. 00 00 01 cannot stand in a payload.
pub const DROPPED: &[&str] = &[
    "dropped: 3: no bytes",
    "dropped: 10: 00 00 00",
    "dropped: 10: 00 00 02",
    "dropped: 10: 00 00 03 then above 3",
    "dropped: 4: forbidden bit",
    "dropped: 4: extension byte missing",
    "dropped: 5: leb128 cut short",
    "dropped: 5: leb128 over 8 bytes",
    "dropped: 5: leb128 value over 4,294,967,295",
    "dropped: 5: size above what remains",
    "dropped: 5: size below what remains",
    "dropped: 5: delimiter with content",
    "dropped: 6: tile list",
    "dropped: 42: sequence header without content",
    "dropped: 42: frame header without content",
    "dropped: 42: reduced_still_picture_header",
];

/// Why reading does not accept a result of few bytes.
pub const NOT_ACCEPTED: &[&str] = &[
    "not accepted: 9: no start code at the head",
    "not accepted: 7: delimiter not the first",
    "not accepted: 7: 4 or 7 before a frame header",
    "not accepted: 7: after a frame",
    "not accepted: 7: after a shown-again frame",
    "not accepted: 7: wrong type after a frame header",
    "not accepted: 7: ends before the frame",
    "not accepted: 7: ends without a last tile group",
];

/// What a result is, besides.
pub const RESULTS: &[&str] = &[
    "kept",
    "closing 03 removed",
    "accepted",
    "all kept",
    "some kept",
    "none kept",
    "kept after a dropped one",
    "no leading bytes",
    "leading bytes",
];

/// The labels of what salvaging gives.
fn labels(salvaged: &Salvaged) -> Vec<String> {
    let mut labels = Vec::new();
    let mut dropped_before = false;
    for mark in &salvaged.marks {
        labels.push(match mark {
            Mark::Kept => "kept".to_string(),
            Mark::ClosingRemoved => "closing 03 removed".to_string(),
            Mark::Dropped(refusal) => format!("dropped: {}", refusal.condition),
        });
        let dropped = matches!(mark, Mark::Dropped(_));
        if dropped_before && !dropped {
            labels.push("kept after a dropped one".to_string());
        }
        dropped_before |= dropped;
    }
    labels.push(match unit::accept(&salvaged.bytes) {
        Err(refusal) => format!("not accepted: {}", refusal.condition),
        Ok(_) => "accepted".to_string(),
    });
    let kept = if salvaged.kept() == 0 {
        "none kept"
    } else if salvaged.kept() < salvaged.marks.len() {
        "some kept"
    } else {
        "all kept"
    };
    labels.push(kept.to_string());
    let leading = match salvaged.leading {
        0 => "no leading bytes",
        _ => "leading bytes",
    };
    labels.push(leading.to_string());
    labels
}

/// How the rooms for bytes and marks stand to the needs.
fn rooms_label(salvaged: &Salvaged, bytes_room: usize, marks_room: usize) -> String {
    let stand = |room: usize, need: usize| {
        if room > need {
            "more"
        } else if room == need {
            "exact"
        } else if room == 0 {
            "none"
        } else if room + 1 == need {
            "one short"
        } else {
            "several short"
        }
    };
    let bytes = stand(bytes_room, salvaged.bytes.len());
    let marks = stand(marks_room, salvaged.marks.len());
    format!("rooms: bytes {bytes}, marks {marks}")
}

/// The buffers of one caller, used again from call to call.
#[derive(Default)]
pub struct Caller {
    given: Given<u8>,
    lent: Lent<u8>,
    lent_marks: Lent<u8>,
}

impl Caller {
    /// Salvages an input into rooms and compares all that came of it with the reference.
    pub fn salvage(
        &mut self,
        suite: &mut Suite,
        input: &[u8],
        (bytes_room, marks_room): (usize, usize),
        more: &[&str],
    ) {
        self.given.give(input);
        let got = under_test::salvage(
            self.given.part(),
            self.lent.lend(bytes_room),
            self.lent_marks.lend(marks_room),
        );
        let mut labels: Vec<String> = more.iter().map(|label| label.to_string()).collect();
        match salvage::salvaged(input) {
            Err(refusal) => labels.push(refusal.condition.to_string()),
            Ok(salvaged) => labels.push(rooms_label(&salvaged, bytes_room, marks_room)),
        }
        let expected = salvage::salvage(input, bytes_room, marks_room);
        let answer = under_test::salvaged_answer(&expected);
        let mut bytes: &[u8] = &[];
        let mut marks = Vec::new();
        if let Ok(salvaged) = &expected {
            labels.extend(self::labels(salvaged));
            bytes = &salvaged.bytes;
            marks.extend(salvaged.marks.iter().map(Mark::number));
        }
        let outputs = self.lent.holds(bytes) && self.lent_marks.holds(&marks);
        let passed = got == answer && outputs && self.given.unchanged(input);
        let labels: Vec<&str> = labels.iter().map(|label| label.as_str()).collect();
        suite.case(&labels, passed, || {
            format!(
                "salvage, rooms {bytes_room} and {marks_room}: expected {answer:?} and marks \
                 {marks:?}, got {got:?}, outputs {}; input {}",
                right(outputs),
                hex(input)
            )
        });
    }

    /// Salvages an input into rooms that are large enough for whatever it holds.
    pub fn salvage_wide(&mut self, suite: &mut Suite, input: &[u8], more: &[&str]) {
        self.salvage(suite, input, (input.len(), MOST_OBUS), more);
    }

    /// What holds of every result, by what the library answers alone: it is no longer than what
    /// follows the leading bytes, it is accepted exactly where reading accepts it, salvaging it keeps
    /// it as it is, and an accepted unit loses nothing.
    pub fn laws(&mut self, suite: &mut Suite, input: &[u8]) {
        let mut out = vec![0; input.len()];
        let mut marks = [0xEE; MOST_OBUS];
        let first = under_test::salvage(input, &mut out, &mut marks);
        if first.number != 0 {
            return;
        }
        let result = &out[..first.bytes as usize];
        let tsobus = first.tsobus as usize;
        let kept = marks[..tsobus].iter().filter(|&&mark| mark < 2).count();
        let mut passed = first.bytes + first.leading <= input.len() as u64
            && kept as u64 == first.kept
            && (first.accepted == 1) == under_test::reading_accepts(result);

        let mut again_out = vec![0; input.len()];
        let mut again_marks = [0xEE; MOST_OBUS];
        let again = under_test::salvage(result, &mut again_out, &mut again_marks);
        passed &= (again.number, again.leading) == (0, 0)
            && again.bytes == first.bytes
            && (again.tsobus, again.kept) == (first.kept, first.kept)
            && again.accepted == first.accepted
            && again_out[..again.bytes as usize] == *result
            && again_marks[..again.kept as usize]
                .iter()
                .all(|&mark| mark == 0);

        let mut label = "laws";
        if under_test::reading_accepts(input) {
            label = "laws: an accepted unit drops nothing";
            let closing = marks[..tsobus].iter().filter(|&&mark| mark == 1).count();
            passed &= (first.accepted, first.leading) == (1, 0)
                && first.kept == first.tsobus
                && first.bytes as usize + closing == input.len();
        }
        suite.case(&[label], passed, || {
            format!("{first:?}, then {again:?}; input {}", hex(input))
        });
    }
}

/// A payload behind a start code.
pub fn tsobu(payload: &[u8]) -> Vec<u8> {
    [&START_CODE, payload].concat()
}
