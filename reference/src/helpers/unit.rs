//! Calls on access units, each compared with the reference, and units to call them with.

pub mod broken;
pub mod damage;
pub mod faults;
pub mod widths;

use crate::helpers::leb128::shortest;
use crate::helpers::obu::{CONDITIONS, build};
use crate::helpers::payload::{refused, room_label};
use crate::kit::{Given, Lent, Random, Suite, hex, right};
use av1ts::Answer;
use av1ts::walk::Step;
use reference::obu::Kind::{self, ShownAgain, Type};
use reference::unit::{START_CODE, total_bytes, total_dropped};
use reference::walk::Step::Refused;
use reference::{order, payload, unit, walk};

/// The conditions of reading's refusals but 8. 00 00 01 cannot stand in a unit's payload.
pub fn reading_conditions() -> Vec<&'static str> {
    let of_units: &[&str] = &[
        "1: more than 64 OBUs",
        "2: over 1,573,056 bytes as carried",
        "2: over 1,048,576 bytes of OBUs",
        "9: no start code at the head",
        "10: 00 00 00",
        "10: 00 00 02",
        "10: 00 00 03 then above 3",
    ];
    [of_units, CONDITIONS, order::CONDITIONS].concat()
}

/// What walks over units that are refused come to.
pub const WALKS: &[&str] = &[
    "walk: 9 at the start",
    "walk: 3: no bytes",
    "walk: 10: 00 00 00",
    "walk: 10: 00 00 02",
    "walk: 10: 00 00 03 then above 3",
    "walk: stays at 3",
    "walk: stays at 10",
    "walk: the end",
    "walk: refuses as reading, 9",
    "walk: refuses as reading, 3",
    "walk: refuses as reading, 10",
];

/// The buffers of one caller, used again from call to call.
#[derive(Default)]
pub struct Caller {
    given: Given<u8>,
    given_lengths: Given<usize>,
    lent: Lent<u8>,
    lent_lengths: Lent<usize>,
    lent_widths: Lent<usize>,
}

/// The figures of an accepted unit.
fn figures(obus: &[unit::ReadObu]) -> Answer {
    Answer {
        count: obus.len() as u64,
        bytes: total_bytes(obus) as u64,
        dropped: total_dropped(obus) as u64,
        ..Answer::default()
    }
}

impl Caller {
    /// Checks a unit and compares with the reference.
    pub fn check(&mut self, suite: &mut Suite, carried: &[u8], more: &[&str]) {
        self.given.give(carried);
        let got = av1ts::unit::check_unit(self.given.part());
        let mut labels = more.to_vec();
        let answer = match unit::accept(carried) {
            Err(refusal) => {
                labels.push(refusal.condition);
                refused(&refusal)
            }
            Ok(obus) => {
                labels.push("check: accepted");
                figures(&obus)
            }
        };
        let passed = got == answer && self.given.unchanged(carried);
        suite.case(&labels, passed, || {
            format!(
                "check: expected {answer:?}, got {got:?}; input {}",
                hex(carried)
            )
        });
    }

    /// Reads a unit into rooms and compares all that came of it with the reference.
    pub fn read(
        &mut self,
        suite: &mut Suite,
        carried: &[u8],
        (bytes_room, lengths_room): (usize, usize),
        more: &[&str],
    ) {
        self.given.give(carried);
        let got = av1ts::unit::read_unit(
            self.given.part(),
            self.lent.lend(bytes_room),
            self.lent_lengths.lend(lengths_room),
        );
        let mut labels = more.to_vec();
        let mut bytes = Vec::new();
        let mut lengths = Vec::new();
        let answer = match unit::read(carried, bytes_room, lengths_room) {
            Err(refusal) => {
                if refusal.number == 8 {
                    let obus = unit::accept(carried).expect("8 is tried last");
                    labels.push(rooms_label(&obus, bytes_room, lengths_room));
                } else {
                    labels.push(refusal.condition);
                }
                refused(&refusal)
            }
            Ok(obus) => {
                labels.push("read: accepted");
                labels.push(rooms_label(&obus, bytes_room, lengths_room));
                for obu in &obus {
                    bytes.extend_from_slice(&obu.bytes);
                    lengths.push(obu.bytes.len());
                }
                figures(&obus)
            }
        };
        let outputs = self.lent.holds(&bytes) && self.lent_lengths.holds(&lengths);
        let passed = got == answer && outputs && self.given.unchanged(carried);
        suite.case(&labels, passed, || {
            format!(
                "read, rooms {bytes_room} and {lengths_room}: expected {answer:?}, got {got:?}, \
                 outputs {}; input {}",
                right(outputs),
                hex(carried)
            )
        });
    }

    /// Reads a unit into rooms that are large enough for whatever it holds.
    pub fn read_wide(&mut self, suite: &mut Suite, carried: &[u8], more: &[&str]) {
        self.read(suite, carried, (carried.len(), unit::MOST_OBUS), more);
    }

    /// Writes a list into a room and compares all that came of it with the reference.
    pub fn write(
        &mut self,
        suite: &mut Suite,
        obus: &[u8],
        lengths: &[usize],
        room: usize,
        more: &[&str],
    ) {
        self.given.give(obus);
        self.given_lengths.give(lengths);
        let got = av1ts::unit::write_unit(
            self.given.part(),
            self.given_lengths.part(),
            self.lent.lend(room),
        );
        let mut labels = more.to_vec();
        let mut carried = Vec::new();
        let answer = match unit::write(obus, lengths, room) {
            Err(refusal) => {
                if refusal.number == 8 {
                    let need = unit::written(obus, lengths).expect("8 is tried last").len();
                    labels.push(room_label(need, room));
                } else {
                    labels.push(refusal.condition);
                }
                refused(&refusal)
            }
            Ok(written) => {
                labels.push("write: accepted");
                labels.push(room_label(written.len(), room));
                carried = written;
                Answer {
                    count: carried.len() as u64,
                    ..Answer::default()
                }
            }
        };
        let output = self.lent.holds(&carried);
        let inputs = self.given.unchanged(obus) && self.given_lengths.unchanged(lengths);
        let passed = got == answer && output && inputs;
        suite.case(&labels, passed, || {
            format!(
                "write, room {room}: expected {answer:?}, got {got:?}, output {}; lengths {:?}{} \
                 OBUs {}",
                right(output),
                &lengths[..lengths.len().min(8)],
                if lengths.len() > 8 { "..." } else { "" },
                hex(obus)
            )
        });
    }

    /// Walks over a unit from the start to the end or to a refusal, at which the walk stays.
    pub fn walk(&mut self, suite: &mut Suite, carried: &[u8], more: &[&str]) {
        self.given.give(carried);
        let got = av1ts::walk::walk_start(self.given.part());
        let start = walk::start(carried);
        let expected = match &start {
            Err(refusal) => refused!(Step, refusal),
            Ok(at) => Step {
                next_at: *at as u64,
                ..Step::default()
            },
        };
        let label = match &start {
            Err(_) => "walk: 9 at the start",
            Ok(_) => "walk: starts",
        };
        let passed = got == expected && self.given.unchanged(carried);
        suite.case(&[more, &[label]].concat(), passed, || {
            format!(
                "walk start: expected {expected:?}, got {got:?}; input {}",
                hex(carried)
            )
        });
        // Where the start refuses, the first step does too.
        let mut at = 0;
        loop {
            let (next, label) = self.step(suite, carried, at, more);
            if next == at {
                // At the end and at a refusal the walk stays: the next step is the same again.
                self.step(suite, carried, at, &[more, &[label]].concat());
                return;
            }
            at = next;
        }
    }

    /// One step at any place; answers the place of the next step and, where the walk stays, the
    /// label for staying.
    fn step(
        &mut self,
        suite: &mut Suite,
        carried: &[u8],
        at: usize,
        more: &[&str],
    ) -> (usize, &'static str) {
        let got = av1ts::walk::walk_step(self.given.part(), at);
        let here = Step {
            next_at: at as u64,
            ..Step::default()
        };
        let (expected, label, again) = match walk::step(carried, at) {
            walk::Step::End => (
                Step { end: 1, ..here },
                "walk: the end".to_string(),
                "walk: stays at the end",
            ),
            Refused(refusal) => (
                Step {
                    number: refusal.number,
                    place: refusal.place,
                    ..here
                },
                format!("walk: {}", refusal.condition),
                match refusal.number {
                    9 => "walk: stays at 9",
                    3 => "walk: stays at 3",
                    _ => "walk: stays at 10",
                },
            ),
            walk::Step::Payload { part, next } => (
                Step {
                    start: part.start as u64,
                    length: part.len() as u64,
                    next_at: next as u64,
                    ..Step::default()
                },
                "walk: a payload".to_string(),
                "",
            ),
        };
        let passed = got == expected && self.given.unchanged(carried);
        suite.case(&[more, &[&label]].concat(), passed, || {
            format!(
                "walk step at {at}: expected {expected:?}, got {got:?}; input {}",
                hex(carried)
            )
        });
        (expected.next_at as usize, again)
    }

    /// A step at any place, whatever the steps before it come to.
    pub fn step_at(&mut self, suite: &mut Suite, carried: &[u8], at: usize, more: &[&str]) {
        self.given.give(carried);
        self.step(suite, carried, at, more);
    }

    /// Where reading refuses with 3 or 10 at OBU k, the walk hands out k payloads and then refuses
    /// with that number and place; where it refuses with 9, the walk does at its first step. Both
    /// answers are the library's.
    pub fn walk_as_reading(&mut self, suite: &mut Suite, carried: &[u8]) {
        self.given.give(carried);
        let unit = self.given.part();
        let read = av1ts::unit::check_unit(unit);
        let label = match read.number {
            9 => "walk: refuses as reading, 9",
            3 => "walk: refuses as reading, 3",
            10 => "walk: refuses as reading, 10",
            _ => return,
        };
        let mut handed_out = 0;
        let mut step = av1ts::walk::walk_step(unit, 0);
        while step.number == 0 && step.end == 0 && handed_out < carried.len() as u64 {
            handed_out += 1;
            step = av1ts::walk::walk_step(unit, step.next_at as usize);
        }
        let passed =
            handed_out == read.place && (step.number, step.place) == (read.number, read.place);
        suite.case(&[label], passed, || {
            format!(
                "reading: {read:?}; walk: {handed_out} payloads, then {step:?}; input {}",
                hex(carried)
            )
        });
    }
}

/// How both rooms of reading stand to the needs.
fn rooms_label(obus: &[unit::ReadObu], bytes_room: usize, lengths_room: usize) -> &'static str {
    let (bytes, lengths) = (total_bytes(obus), obus.len());
    match (bytes_room.cmp(&bytes), lengths_room.cmp(&lengths)) {
        (std::cmp::Ordering::Less, std::cmp::Ordering::Less) => "8: both rooms short",
        (std::cmp::Ordering::Less, _) => match bytes_room {
            0 => "8: no room for bytes",
            room if room + 1 == bytes => "8: bytes one short",
            _ => "8: bytes several short",
        },
        (_, std::cmp::Ordering::Less) => match lengths_room {
            0 => "8: no room for lengths",
            room if room + 1 == lengths => "8: lengths one short",
            _ => "8: lengths several short",
        },
        (std::cmp::Ordering::Equal, std::cmp::Ordering::Equal) => "both rooms exactly enough",
        (std::cmp::Ordering::Equal, _) => "bytes exactly enough, lengths more",
        (_, std::cmp::Ordering::Equal) => "bytes more, lengths exactly enough",
        _ => "both rooms more than enough",
    }
}

/// The labels of reading's rooms.
pub const ROOMS: &[&str] = &[
    "8: both rooms short",
    "8: no room for bytes",
    "8: bytes one short",
    "8: bytes several short",
    "8: no room for lengths",
    "8: lengths one short",
    "8: lengths several short",
    "both rooms exactly enough",
    "bytes exactly enough, lengths more",
    "bytes more, lengths exactly enough",
    "both rooms more than enough",
];

/// A list of OBUs, each by itself.
pub type List = Vec<Vec<u8>>;

pub fn lengths(list: &List) -> Vec<usize> {
    list.iter().map(|obu| obu.len()).collect()
}

/// Payloads as a carried unit, each after a start code.
pub fn carry(payloads: &[Vec<u8>]) -> Vec<u8> {
    let mut carried = Vec::new();
    for payload in payloads {
        carried.extend_from_slice(&START_CODE);
        carried.extend_from_slice(payload);
    }
    carried
}

/// A list as a carried unit with the fewest bytes.
pub fn carry_list(list: &List) -> Vec<u8> {
    let payloads: Vec<Vec<u8>> = list.iter().map(|obu| payload::escaped(obu)).collect();
    carry(&payloads)
}

/// A list as a carried unit, with a closing 03 behind some payloads that end in 00 00.
pub fn carry_closed(random: &mut Random, list: &List) -> Vec<u8> {
    let mut payloads = Vec::new();
    for obu in list {
        let mut payload = payload::escaped(obu);
        if payload.ends_with(&[0, 0]) && !random.one_in(4) {
            payload.push(3);
        }
        payloads.push(payload);
    }
    carry(&payloads)
}

/// Kinds in a legal order, at most `most` of them, which is at least 2.
pub fn kinds(random: &mut Random, most: usize) -> Vec<Kind> {
    let mut kinds = Vec::new();
    let count = 1 + random.below(most);
    let with_header = count >= 2 && random.one_in(2);
    let frame = if with_header {
        2 + random.below(count - 1)
    } else {
        1
    };
    if count > frame && random.one_in(2) {
        kinds.push(Type(2));
    }
    while kinds.len() + frame < count {
        kinds.push(Type(random.pick(&[0, 1, 5, 9, 10, 11, 12, 13, 14, 15])));
    }
    if with_header {
        kinds.push(Type(3));
        while kinds.len() + 1 < count {
            kinds.push(Type(random.pick(&[4, 7, 15])));
        }
        kinds.push(Type(4));
    } else {
        kinds.push(random.pick(&[Type(6), Type(6), ShownAgain]));
    }
    kinds
}

/// Content bytes, rich in bytes 0 to 3.
pub fn content(random: &mut Random, len: usize) -> Vec<u8> {
    match random.below(4) {
        0 => random.fill(len, |random| random.pick(&[0, 0, 0, 1, 2, 3])),
        1 => random.fill(len, |random| random.pick(&[0, 0, 0, 1, 2, 3, 4, 255])),
        2 => vec![0; len],
        _ => random.fill(len, |random| random.next() as u8),
    }
}

/// The content, made right for a kind: a delimiter has none, sequence and frame headers have some
/// and the bit that decides.
pub fn right_content(kind: Kind, mut content: Vec<u8>) -> Vec<u8> {
    if matches!(kind, Type(1 | 3) | ShownAgain) && content.is_empty() {
        content.push(0);
    }
    match kind {
        Type(1) => content[0] &= !0x08,
        Type(2) => content.clear(),
        Type(3) => content[0] &= 0x7F,
        ShownAgain => content[0] |= 0x80,
        Type(_) => {}
    }
    content
}

/// The shortest OBU of a kind: a header, and a byte of content where there must be one.
pub fn shortest_obu(kind: Kind) -> Vec<u8> {
    build(kind.obu_type(), 0, None, 0, &right_content(kind, vec![]))
}

/// A legal OBU of a kind with some content, made right for it: with and without size, extension and
/// longer forms.
pub fn any_obu(random: &mut Random, kind: Kind, content: Vec<u8>) -> Vec<u8> {
    let content = right_content(kind, content);
    let low = random.below(2) as u8;
    let extension = if random.one_in(3) {
        Some(random.next() as u8)
    } else {
        None
    };
    let least = shortest(content.len() as u64);
    let width = match random.below(4) {
        0 => 0,
        1 => least + random.below(9 - least),
        _ => least,
    };
    build(kind.obu_type(), low, extension, width, &content)
}

/// A legal list of up to `most` OBUs, each with up to `longest` content bytes.
pub fn any_list(random: &mut Random, most: usize, longest: usize) -> List {
    let mut list = Vec::new();
    for kind in kinds(random, most) {
        let len = random.below(longest + 1);
        let content = content(random, len);
        list.push(any_obu(random, kind, content));
    }
    list
}
