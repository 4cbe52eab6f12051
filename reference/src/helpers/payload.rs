//! One call of escape or unescape, compared with the reference.

use crate::kit::{Given, Lent, Suite, hex, right};
use av1ts::Answer;
use reference::payload::{self, Unescaped};
use reference::refusal::Refusal;

/// A refusal as the C interface answers it.
pub fn refused(refusal: &Refusal) -> Answer {
    refused!(Answer, refusal)
}

/// What the C interface answers where so many bytes were written.
pub fn written(count: usize) -> Answer {
    Answer {
        count: count as u64,
        ..Answer::default()
    }
}

/// How rooms stand to the need.
pub const ROOMS: &[&str] = &[
    "room exactly enough",
    "room more than enough",
    "8: one byte short",
    "8: no room",
    "8: several bytes short",
];

/// How a room stands to the need.
pub fn room_label(need: usize, room: usize) -> &'static str {
    if room == need {
        "room exactly enough"
    } else if room > need {
        "room more than enough"
    } else if room + 1 == need {
        "8: one byte short"
    } else if room == 0 {
        "8: no room"
    } else {
        "8: several bytes short"
    }
}

/// The label of what is written into a room: how the room stands to the need, or a refusal but 8.
pub fn outcome_label<T>(outcome: &Result<T, Refusal>, need: usize, room: usize) -> &'static str {
    match outcome {
        Err(refusal) if refusal.number != 8 => refusal.condition,
        _ => room_label(need, room),
    }
}

/// Whether a refusal comes before 8, which would be given too.
pub fn before_8<T>(outcome: &Result<T, Refusal>, need: usize, room: usize) -> bool {
    room < need && matches!(outcome, Err(refusal) if refusal.number != 8)
}

/// Rooms to try for a need: exactly enough, one less, none, one more and some more.
pub fn rooms(need: usize) -> Vec<usize> {
    let mut rooms = vec![need, need + 1, need + 9];
    if need > 0 {
        rooms.push(0);
    }
    if need > 1 {
        rooms.push(need - 1);
    }
    if need > 3 {
        rooms.push(need / 2);
    }
    rooms
}

/// The buffers of one caller, used again from call to call.
#[derive(Default)]
pub struct Caller {
    given: Given<u8>,
    lent: Lent<u8>,
}

impl Caller {
    /// Escapes an OBU into a room and compares all that came of it with the reference.
    pub fn escape(&mut self, suite: &mut Suite, obu: &[u8], room: usize, more: &[&str]) {
        self.given.give(obu);
        let got = av1ts::payload::escape(self.given.part(), self.lent.lend(room));
        let expected = payload::escape(obu, room);
        let labels = [more, &escape_labels(obu, room, &expected)].concat();
        let (answer, bytes) = match expected {
            Err(refusal) => (refused(&refusal), Vec::new()),
            Ok(bytes) => (written(bytes.len()), bytes),
        };
        self.compare(suite, ("escape", obu), (got, answer), &bytes, &labels);
    }

    /// Unescapes a payload into a room and compares all that came of it with the reference.
    pub fn unescape(&mut self, suite: &mut Suite, payload: &[u8], room: usize, more: &[&str]) {
        self.given.give(payload);
        let got = av1ts::payload::unescape(self.given.part(), self.lent.lend(room));
        let expected = payload::unescape(payload, room);
        let labels = [more, &unescape_labels(payload, room, &expected)].concat();
        let (answer, bytes) = match expected {
            Err(refusal) => (refused(&refusal), Vec::new()),
            Ok(Unescaped { obu, dropped }) => {
                let answer = Answer {
                    dropped: dropped as u64,
                    ..written(obu.len())
                };
                (answer, obu)
            }
        };
        self.compare(suite, ("unescape", payload), (got, answer), &bytes, &labels);
    }

    /// Compares an answer with the one expected, and the output with what must stand at its front.
    fn compare(
        &self,
        suite: &mut Suite,
        (call, input): (&str, &[u8]),
        (got, expected): (Answer, Answer),
        bytes: &[u8],
        labels: &[&str],
    ) {
        let output = self.lent.holds(bytes);
        let passed = got == expected && output && self.given.unchanged(input);
        suite.case(labels, passed, || {
            format!(
                "{call}, room {}: expected {expected:?} and {}, got {got:?}, output {}: {}; input {}",
                self.lent.part().len(),
                hex(bytes),
                right(output),
                hex(self.lent.part()),
                hex(input)
            )
        });
    }
}

/// The labels of an OBU that is escaped.
fn escape_labels(obu: &[u8], room: usize, escaped: &Result<Vec<u8>, Refusal>) -> Vec<&'static str> {
    let need = escaped
        .as_ref()
        .map_or_else(|_| payload::escaped(obu).len(), Vec::len);
    let mut labels = vec![outcome_label(escaped, need, room)];
    match escaped {
        Err(refusal) if refusal.number == 2 && room == 0 => labels.push("2: before 8"),
        Err(_) => {}
        Ok(written) => {
            labels.push(match written.len() - obu.len() {
                0 => "escape: nothing inserted",
                1 => "escape: one 03 inserted",
                _ => "escape: several 03 inserted",
            });
            if written.ends_with(&[0, 0]) {
                labels.push("escape: ends in 00 00");
            }
        }
    }
    labels
}

/// The labels of a payload that is unescaped.
fn unescape_labels(
    payload: &[u8],
    room: usize,
    unescaped: &Result<Unescaped, Refusal>,
) -> Vec<&'static str> {
    let mut labels = Vec::new();
    match unescaped {
        Err(refusal) => {
            let need = payload::unescaped(payload).obu.len();
            labels.push(outcome_label(unescaped, need, room));
            match refusal.number {
                2 => {
                    if room == 0 {
                        labels.push("2: before 8");
                    }
                    if payload::first_forbidden(payload).is_some() {
                        labels.push("2: before 10");
                    }
                }
                10 => labels.extend(forbidden_labels(payload, room, refusal)),
                _ => {}
            }
        }
        Ok(Unescaped { obu, dropped }) => {
            labels.push(room_label(obu.len(), room));
            labels.push(match dropped {
                0 => "unescape: nothing dropped",
                1 => "unescape: one 03 dropped",
                _ => "unescape: several 03 dropped",
            });
            if payload.ends_with(&[0, 0]) {
                labels.push("unescape: ends in 00 00");
            }
            if payload.ends_with(&[0, 0, 3]) {
                labels.push("unescape: ends in 00 00 03");
            }
        }
    }
    labels
}

/// The labels of 10: where the forbidden sequence stands, and that it comes before 8.
fn forbidden_labels(payload: &[u8], room: usize, refusal: &Refusal) -> Vec<&'static str> {
    let rest = payload.len() - refusal.place as usize;
    let at_end = rest == 3 || rest == 4 && refusal.condition.contains("above");
    let mut labels = vec![if refusal.place == 0 {
        "10: at place 0"
    } else if at_end {
        "10: at the payload's end"
    } else {
        "10: inside the payload"
    }];
    if room == 0 {
        labels.push("10: before 8");
    }
    labels
}

/// The labels of both functions that inputs of every kind hit, beside those of rooms.
pub const COMMON: &[&str] = &[
    "10: 00 00 00",
    "10: 00 00 01",
    "10: 00 00 02",
    "10: 00 00 03 then above 3",
    "10: at place 0",
    "10: inside the payload",
    "10: at the payload's end",
    "10: before 8",
    "escape: nothing inserted",
    "escape: one 03 inserted",
    "escape: several 03 inserted",
    "escape: ends in 00 00",
    "unescape: nothing dropped",
    "unescape: one 03 dropped",
    "unescape: several 03 dropped",
    "unescape: ends in 00 00",
    "unescape: ends in 00 00 03",
];
