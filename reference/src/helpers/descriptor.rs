//! Calls on video descriptors, each compared with the reference.

use crate::helpers::payload::{before_8, outcome_label, refused, written};
use crate::helpers::under_test::{self, descriptor_answer, rewritten_answer};
use crate::kit::{Given, Lent, Suite, hex};
use reference::descriptor::{self, FIELDS};

/// The descriptor of 01's table of cases.
pub const EXAMPLE: [u8; 6] = [0x80, 0x04, 0x81, 0x08, 0x0C, 0xC0];

/// The buffers of one caller, used again from call to call.
#[derive(Default)]
pub struct Caller {
    given: Given<u8>,
    lent: Lent<u8>,
}

impl Caller {
    /// Reads a descriptor and compares with the reference.
    pub fn read(&mut self, suite: &mut Suite, bytes: &[u8], more: &[&str]) {
        self.given.give(bytes);
        let got = under_test::read_descriptor(self.given.part());
        let read = descriptor::read(bytes);
        let expected = descriptor_answer(&read);
        let label = match &read {
            Err(refusal) => refusal.condition,
            Ok(video) if video.delay.is_some() => "read: with delay",
            Ok(_) => "read: without delay",
        };
        let passed = got == expected && self.given.unchanged(bytes);
        suite.case(&[more, &[label]].concat(), passed, || {
            format!(
                "read descriptor: expected {expected:?}, got {got:?}; input {}",
                hex(bytes)
            )
        });
    }

    /// Writes a descriptor into a room, compares with the reference, and reads what was written.
    pub fn write(&mut self, suite: &mut Suite, fields: &[u8; 10], room: usize, more: &[&str]) {
        self.given.give(fields);
        let given: &[u8; 10] = self.given.part().try_into().expect("ten were given");
        let got = under_test::write_descriptor(given, self.lent.lend(room));
        let wrote = descriptor::write(fields, room);
        let mut labels = [more, &[outcome_label(&wrote, 6, room)]].concat();
        if before_8(&wrote, 6, room) {
            labels.push("41 before 8");
        }
        let (expected, bytes): (_, &[u8]) = match &wrote {
            Err(refusal) => (refused(refusal), &[]),
            Ok(bytes) => (written(6), bytes),
        };
        let passed = got == expected && self.lent.holds(bytes) && self.given.unchanged(fields);
        suite.case(&labels, passed, || {
            format!(
                "write descriptor, room {room}: expected {expected:?} and {}, got {got:?} and {}; \
                 {fields:?}",
                hex(bytes),
                hex(self.lent.part())
            )
        });

        // What was written is read as what was given, with no delay.
        if wrote.is_ok() {
            let back = under_test::read_descriptor(&self.lent.part()[..6]);
            let same = back.number == 0
                && back.field == fields.map(u64::from)
                && (back.delay_present, back.delay) == (0, 0);
            suite.case(&["written, then read"], same, || {
                format!("written, then read: got {back:?}; {fields:?}")
            });
        }
    }

    /// Reads a descriptor, and writes what was read: the same six bytes exactly where no delay was
    /// present.
    pub fn read_then_write(&mut self, suite: &mut Suite, bytes: &[u8]) {
        self.given.give(bytes);
        let got = under_test::read_descriptor(self.given.part());
        if got.number != 0 {
            return;
        }
        let fields = got.field.map(|value| value as u8);
        let answer = under_test::write_descriptor(&fields, self.lent.lend(6));
        let (same, label) = match got.delay_present {
            0 => (true, "read, then written: the same"),
            _ => (false, "read, then written: not the same"),
        };
        let passed = answer == written(6) && self.lent.holds(bytes) == same;
        suite.case(&[label], passed, || {
            format!(
                "read, then written: {got:?}, then {answer:?}; input {}",
                hex(bytes)
            )
        });
    }

    /// Rewrites a descriptor into a room and compares with the reference, and with reading it and
    /// writing what was read.
    pub fn rewrite(&mut self, suite: &mut Suite, bytes: &[u8], room: usize, more: &[&str]) {
        self.given.give(bytes);
        let got = under_test::rewrite_descriptor(self.given.part(), self.lent.lend(room));
        let rewritten = descriptor::rewrite(bytes, room);
        let expected = rewritten_answer(&rewritten);
        let mut labels = [more, &[outcome_label(&rewritten, 6, room)]].concat();
        if before_8(&rewritten, 6, room) {
            labels.push("40 before 8");
        }
        let written: &[u8] = match &rewritten {
            Err(_) => &[],
            Ok(rewritten) => {
                labels.push(if rewritten.dropped_delay {
                    "rewritten: a delay dropped"
                } else {
                    "rewritten: no delay"
                });
                &rewritten.bytes
            }
        };
        let passed = got == expected && self.lent.holds(written) && self.given.unchanged(bytes);
        suite.case(&labels, passed, || {
            format!(
                "rewrite, room {room}: expected {expected:?} and {}, got {got:?} and {}; input {}",
                hex(written),
                hex(self.lent.part()),
                hex(bytes)
            )
        });
        if got.number == 0 && room >= 6 {
            let before = under_test::read_descriptor(bytes);
            let after = under_test::read_descriptor(&self.lent.part()[..6]);
            let same = self.lent.part()[..6] == *bytes;
            let passed = (after.number, after.field) == (0, before.field)
                && (after.delay_present, after.delay) == (0, 0)
                && got.dropped_delay == before.delay_present
                && same == (before.delay_present == 0);
            suite.case(&["rewritten, then read"], passed, || {
                format!(
                    "{got:?}: before {before:?}, after {after:?}; {}",
                    hex(bytes)
                )
            });
        }
    }
}

/// The highest value of each field.
pub fn highest() -> [u8; 10] {
    let mut values = [0; 10];
    for (value, field) in values.iter_mut().zip(&FIELDS) {
        *value = ((1u32 << field.width) - 1) as u8;
    }
    values
}
