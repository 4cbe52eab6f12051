//! Every refusal of reading and writing a unit by every condition, and in pairs: a unit that breaks
//! two rules gives the one tried earlier.

use crate::helpers::obu::KINDS;
use crate::helpers::unit::broken::{bad_obus, illegal_payloads};
use crate::helpers::unit::faults::{self, all_pairs, pairs};
use crate::helpers::unit::{
    Caller, List, carry, carry_list, lengths, reading_conditions, shortest_obu,
};
use crate::kit::{Definition, Suite, labels};
use reference::unit::{MOST_BYTES, MOST_CARRIED};

pub const SUITE: Definition = Definition {
    name: "unit-refusals",
    labels: || {
        let mut list = labels(&reading_conditions());
        list.extend(labels(&[
            "1: no OBU",
            "2: lengths do not add up",
            "write: accepted",
            "check: accepted",
            "read: accepted",
        ]));
        let each = ["3", "10", "4", "5", "6", "42"];
        list.extend(all_pairs(
            "reading",
            &["2 carried", "9", "1"],
            &each,
            &["2 sum", "7", "8"],
        ));
        list.extend(all_pairs(
            "writing",
            &["1", "2"],
            &["3", "4", "5", "6", "42"],
            &["7", "8"],
        ));
        list
    },
    run,
};

fn frame() -> Vec<u8> {
    vec![0x32, 0x01, 0x66]
}

fn sequence_header() -> Vec<u8> {
    vec![0x0A, 0x02, 0x11, 0x22]
}

/// Checks and reads a unit, with room enough and with none, under the labels of its pairs.
fn reading(suite: &mut Suite, caller: &mut Caller, carried: &[u8]) {
    let wide = (carried.len(), 64);
    for (bytes_room, lengths_room) in [wide, (0, 0)] {
        let pairs = pairs(
            "reading",
            &faults::reading(carried, bytes_room, lengths_room),
        );
        let more: Vec<&str> = pairs.iter().map(|label| label.as_str()).collect();
        caller.read(suite, carried, (bytes_room, lengths_room), &more);
    }
    caller.check(suite, carried, &[]);
}

fn writing(suite: &mut Suite, caller: &mut Caller, bytes: &[u8], lengths: &[usize]) {
    for room in [bytes.len() * 3 / 2 + 3 * lengths.len() + 3, 0] {
        let pairs = pairs("writing", &faults::writing(bytes, lengths, room));
        let more: Vec<&str> = pairs.iter().map(|label| label.as_str()).collect();
        caller.write(suite, bytes, lengths, room, &more);
    }
}

/// A payload that is legal, and an OBU too, of the given length.
fn long(header: u8, len: usize) -> Vec<u8> {
    let mut bytes = vec![0x77; len];
    bytes[0] = header;
    bytes
}

/// Lists of kinds, in order and out of it by each condition; 16 is a frame shown again.
const ORDERS: &[&[usize]] = &[
    &[1, 2, 6],
    &[2, 2, 6],
    &[4],
    &[7, 6],
    &[1, 4, 6],
    &[6, 6],
    &[6, 15],
    &[6, 2],
    &[3, 3, 4],
    &[3, 6],
    &[3, 2, 4],
    &[3, 1, 4],
    &[3, 4, 5, 4],
    &[2],
    &[1, 15],
    &[3],
    &[3, 7],
    &[3, 4, 15],
    &[3, 4, 7],
    &[3, 4],
    &[6],
    &[2, 15, 6],
    &[16],
    &[2, 1, 16],
    &[16, 4],
    &[16, 16],
    &[16, 15],
    &[2, 16, 2],
    &[3, 16],
    &[6, 16],
];

/// A payload for each rule of one OBU.
const ONE_OF_EACH: &[&[u8]] = &[
    &[],
    &[0x30, 0, 0, 0],
    &[0xB0],
    &[0x34],
    &[0x32, 0x02, 0xAA],
    &[0x10, 0xAA],
    &[0x40],
    &[0x08],
    &[0x18],
    &[0x08, 0x08],
];

/// Payloads that break rules: first the OBUs that are legal as payloads, then illegal payloads.
struct Bad {
    all: List,
    obus: usize,
}

impl Bad {
    fn all() -> Bad {
        let obus = bad_obus();
        Bad {
            obus: obus.len(),
            all: [obus, illegal_payloads()].concat(),
        }
    }

    /// Each payload, and whether it can stand in a list to write.
    fn each(&self) -> impl Iterator<Item = (&Vec<u8>, bool)> + '_ {
        let obus = self.obus;
        self.all
            .iter()
            .enumerate()
            .map(move |(at, payload)| (payload, at < obus))
    }
}

fn run(suite: &mut Suite) {
    let mut caller = Caller::default();
    let bad = Bad::all();
    // What breaks rules of one OBU, and what does not, in every place of a unit.
    for (payload, is_obu) in bad.each() {
        let lists: [List; 5] = [
            vec![payload.clone()],
            vec![payload.clone(), frame()],
            vec![sequence_header(), payload.clone(), frame()],
            vec![sequence_header(), frame(), payload.clone()],
            vec![frame(), frame(), payload.clone(), frame()],
        ];
        for list in &lists {
            reading(suite, &mut caller, &carry(list));
            if is_obu {
                writing(suite, &mut caller, &list.concat(), &lengths(list));
            }
        }
    }

    two_of_them(suite, &mut caller, &bad);
    too_many(suite, &mut caller, &bad);
    no_start_code(suite, &mut caller, &bad);
    sum_too_large(suite, &mut caller);
    carried_too_long(suite, &mut caller);
    orders(suite, &mut caller);
    lengths_that_do_not_add_up(suite, &mut caller, &bad);
}

/// Two of them one after the other, in both orders: the first in the list decides.
fn two_of_them(suite: &mut Suite, caller: &mut Caller, bad: &Bad) {
    for (first, first_is_obu) in bad.each() {
        for (second, second_is_obu) in bad.each() {
            let list = vec![sequence_header(), first.clone(), second.clone(), frame()];
            reading(suite, caller, &carry(&list));
            if first_is_obu && second_is_obu {
                writing(suite, caller, &list.concat(), &lengths(&list));
            }
        }
    }
}

/// Too many OBUs, with each of the others.
fn too_many(suite: &mut Suite, caller: &mut Caller, bad: &Bad) {
    for count in [65, 66, 130] {
        let mut list = vec![vec![0x78]; count - 1];
        list.push(frame());
        reading(suite, caller, &carry(&list));
        writing(suite, caller, &list.concat(), &lengths(&list));
        for (payload, is_obu) in bad.each() {
            for place in [0, 30, 64] {
                let mut list = list.clone();
                list[place] = payload.clone();
                reading(suite, caller, &carry(&list));
                if is_obu {
                    writing(suite, caller, &list.concat(), &lengths(&list));
                }
            }
        }
        list[64] = long(0x78, MOST_BYTES + 1);
        reading(suite, caller, &carry(&list));
        writing(suite, caller, &list.concat(), &lengths(&list));
        list[64] = frame();
        list[3] = frame();
        reading(suite, caller, &carry(&list));
        writing(suite, caller, &list.concat(), &lengths(&list));
    }
}

/// No start code at the head, with each of the others behind it.
fn no_start_code(suite: &mut Suite, caller: &mut Caller, bad: &Bad) {
    let headless = |carried: &[u8]| {
        [
            carried[1..].to_vec(),
            carried[3..].to_vec(),
            [&[0], carried].concat(),
            [&[0x30], carried].concat(),
            [&[0, 0, 2], carried].concat(),
            [&[0, 0, 3, 1], carried].concat(),
        ]
    };
    for payload in bad.all.iter().chain([&frame(), &vec![0x78]]) {
        for list in [
            vec![payload.clone()],
            vec![sequence_header(), payload.clone(), frame()],
        ] {
            for carried in headless(&carry(&list)) {
                reading(suite, caller, &carried);
            }
        }
    }
    for carried in headless(&carry(&vec![frame(); 70])) {
        reading(suite, caller, &carried);
    }
    for carried in headless(&carry(&[long(0x78, MOST_BYTES), frame()])) {
        reading(suite, caller, &carried);
    }
    for carried in [
        &[][..],
        &[0],
        &[0, 0],
        &[1],
        &[0, 1],
        &[0, 0, 0],
        &[0, 0, 3],
    ] {
        reading(suite, caller, carried);
    }
}

/// The OBUs' sum too large, with each of the others.
fn sum_too_large(suite: &mut Suite, caller: &mut Caller) {
    let large = long(0x78, MOST_BYTES);
    for payload in ONE_OF_EACH {
        let before = vec![payload.to_vec(), large.clone(), frame()];
        let after = vec![large.clone(), payload.to_vec(), frame()];
        for list in [before, after] {
            reading(suite, caller, &carry(&list));
            if !payload.starts_with(&[0x30]) {
                writing(suite, caller, &list.concat(), &lengths(&list));
            }
        }
    }
    for list in [
        vec![large.clone(), frame()],
        vec![large.clone(), vec![0x30]],
        vec![large.clone(), frame(), frame()],
        vec![frame(), large.clone()],
        vec![large.clone(), vec![0x10], frame()],
        vec![large.clone(), vec![0x18, 0x00]],
        vec![large.clone(), vec![0x18, 0x80]],
        vec![vec![0x18, 0x80], large.clone()],
        vec![large.clone(), vec![0x20]],
        vec![large],
    ] {
        reading(suite, caller, &carry(&list));
        writing(suite, caller, &list.concat(), &lengths(&list));
    }
}

/// The carried length too large, with each of the others.
fn carried_too_long(suite: &mut Suite, caller: &mut Caller) {
    let fill = |list: &List, total: usize| {
        let mut carried = carry(list);
        carried.resize(total, 0x77);
        carried
    };
    for total in [MOST_CARRIED, MOST_CARRIED + 1] {
        for payload in ONE_OF_EACH {
            let list = vec![payload.to_vec(), frame(), vec![0x78]];
            reading(suite, caller, &fill(&list, total));
        }
        reading(suite, caller, &fill(&vec![vec![0x78]; 65], total));
        reading(suite, caller, &fill(&vec![frame(), frame()], total));
        reading(suite, caller, &fill(&vec![frame(), vec![0x30]], total));
        reading(suite, caller, &vec![0; total]);
        reading(suite, caller, &vec![0x77; total]);
    }
}

/// Order, by each condition, with OBUs that are right in themselves.
fn orders(suite: &mut Suite, caller: &mut Caller) {
    for kinds in ORDERS {
        let list: List = kinds
            .iter()
            .map(|&kind| shortest_obu(KINDS[kind]))
            .collect();
        reading(suite, caller, &carry_list(&list));
        writing(suite, caller, &list.concat(), &lengths(&list));
    }
}

/// Writing: lengths that do not add up, with each of the others; no OBU.
fn lengths_that_do_not_add_up(suite: &mut Suite, caller: &mut Caller, bad: &Bad) {
    let good = vec![sequence_header(), frame()];
    let bytes = good.concat();
    for lengths in [
        &[][..],
        &[4],
        &[4, 2],
        &[4, 4],
        &[0, 0],
        &[4, 3, 1],
        &[usize::MAX, 8],
    ] {
        writing(suite, caller, &bytes, lengths);
        writing(suite, caller, &[], lengths);
    }
    for payload in &bad.all[..bad.obus] {
        let list = vec![sequence_header(), payload.clone(), frame()];
        let mut lengths = lengths(&list);
        lengths[2] += 1;
        writing(suite, caller, &list.concat(), &lengths);
        let list = [payload.clone(), frame(), frame()];
        writing(suite, caller, &list.concat(), &[payload.len(), 3, 2]);
    }
    reading(suite, caller, &carry(&good));
    writing(suite, caller, &bytes, &lengths(&good));
}
