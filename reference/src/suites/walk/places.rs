//! Walks: over units that are refused elsewhere, from every place, and from places that no walk
//! reaches.

use crate::helpers::unit::{Caller, WALKS, any_list, carry, carry_closed};
use crate::kit::{Definition, Random, Suite, labels};
use reference::unit::{MOST_CARRIED, start_codes};
use reference::walk::{self, Step::Refused};

pub const SUITE: Definition = Definition {
    name: "walk",
    labels: || labels(&[WALKS, LABELS].concat()),
    run,
};

const LABELS: &[&str] = &[
    "walk: starts",
    "walk: a payload",
    "walk: stays at the end",
    "walk: 9: no start code at the place",
    "walk: stays at 9",
    "walk: no 1",
    "walk: no 2",
    "place: 0, no bytes",
    "place: 0, no start code",
    "place: a start code",
    "place: a start code, none at the head",
    "place: a start code behind a step that refuses",
    "place: a start code that refuses, behind another",
    "place: the unit's length",
    "place: inside the unit, no start code",
    "place: past the unit",
    "place: far past the unit",
];

/// How a place stands to a unit.
fn place_label(carried: &[u8], at: usize) -> &'static str {
    let places = start_codes(carried);
    let refuses = |place: usize| matches!(walk::step(carried, place), Refused(_));
    if places.contains(&at) {
        let behind = places.iter().any(|&place| place < at && refuses(place));
        return match (places[0], behind) {
            (1.., _) => "place: a start code, none at the head",
            (_, false) => "place: a start code",
            (_, true) if refuses(at) => "place: a start code that refuses, behind another",
            (_, true) => "place: a start code behind a step that refuses",
        };
    }
    match at {
        0 if carried.is_empty() => "place: 0, no bytes",
        0 => "place: 0, no start code",
        _ if at == carried.len() => "place: the unit's length",
        _ if at < carried.len() => "place: inside the unit, no start code",
        _ if at < carried.len() + 5 => "place: past the unit",
        _ => "place: far past the unit",
    }
}

/// Steps at every place of a unit and past it.
fn everywhere(suite: &mut Suite, caller: &mut Caller, carried: &[u8]) {
    let len = carried.len();
    let far = [
        1 << 31,
        1 << 32,
        usize::MAX / 2 + 1,
        usize::MAX - len - 1,
        usize::MAX - 2,
    ];
    let last = [usize::MAX - 1, usize::MAX];
    for at in (0..len + 5).chain(far).chain(last) {
        caller.step_at(suite, carried, at, &[place_label(carried, at)]);
    }
}

fn run(suite: &mut Suite) {
    let mut caller = Caller::default();
    let mut random = Random::new(10);

    any_payloads(suite, &mut caller, &mut random);
    // Legal units of more than 64 payloads, walked to the end.
    for count in [64, 65, 66, 300] {
        let carried = carry(&vec![vec![0x30, 0]; count]);
        let more: &[&str] = if count > 64 { &["walk: no 1"] } else { &[] };
        caller.walk(suite, &carried, more);
    }

    // Valid units, from all their places.
    for _ in 0..300 {
        let list = any_list(&mut random, 5, 8);
        let carried = carry_closed(&mut random, &list);
        everywhere(suite, &mut caller, &carried);
    }
    for carried in [
        &[][..],
        &[0],
        &[0, 0],
        &[0, 0, 0],
        &[0, 0, 1],
        &[0, 0, 1, 0, 0, 1],
        &[0x30, 0, 0, 1, 0x30],
    ] {
        caller.walk(suite, carried, &[]);
        caller.walk_as_reading(suite, carried);
        everywhere(suite, &mut caller, carried);
    }

    // Units longer than any that reading takes.
    for total in [MOST_CARRIED + 1, MOST_CARRIED + 1000] {
        let mut carried = carry(&[vec![0x10], vec![0x30]]);
        carried.resize(total, 0x55);
        caller.walk(suite, &carried, &["walk: no 2"]);
        carried[total - 3..].copy_from_slice(&[0, 0, 0]);
        caller.walk(suite, &carried, &["walk: no 2"]);
        carried[total - 3..].copy_from_slice(&[0, 0, 1]);
        caller.walk(suite, &carried, &["walk: no 2"]);
    }
}

/// Units of any payloads, legal or not.
fn any_payloads(suite: &mut Suite, caller: &mut Caller, random: &mut Random) {
    for round in 0..6000 {
        let count = if round % 20 == 0 {
            60 + random.below(40)
        } else {
            1 + random.below(4)
        };
        let mut payloads = Vec::new();
        for _ in 0..count {
            let len = random.below(7);
            let rich = random.one_in(3);
            payloads.push(random.fill(len, |random| {
                if rich {
                    random.pick(&[0, 0, 0, 2, 3, 4])
                } else {
                    random.pick(&[0, 3, 4, 0x30])
                }
            }));
        }
        let carried = carry(&payloads);
        let more: &[&str] = if start_codes(&carried).len() > 64 {
            &["walk: no 1"]
        } else {
            &[]
        };
        caller.walk(suite, &carried, more);
        caller.walk_as_reading(suite, &carried);
        if round % 4 == 0 && carried.len() < 60 {
            everywhere(suite, caller, &carried);
            everywhere(suite, caller, &carried[1..]);
            everywhere(suite, caller, &carried[3..]);
        }
    }
}
