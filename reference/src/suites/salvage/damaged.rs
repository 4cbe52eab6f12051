//! Units that encoders wrote, and units made up, damaged: every bit flipped, every cut, bytes put in
//! and taken out at every place, and several damages at once.

use crate::helpers::salvage::{Caller, DROPPED, NOT_ACCEPTED, RESULTS, encoded};
use crate::helpers::unit::damage::{DAMAGES, damage};
use crate::helpers::unit::{any_list, carry_closed, carry_list};
use crate::kit::{Definition, Random, Suite, labels};

pub const SUITE: Definition = Definition {
    name: "salvage-damaged",
    labels: || labels(&[DROPPED, NOT_ACCEPTED, RESULTS, DAMAGES, LABELS].concat()),
    run,
};

const LABELS: &[&str] = &[
    "encoded: as written",
    "encoded: bit flipped",
    "encoded: cut at the end",
    "encoded: cut at the front",
    "encoded: byte lost",
    "encoded: byte put in",
    "encoded: start code put in",
    "made up: as written",
    "several damages",
    "1: more than 64 tsOBUs",
    "laws",
    "laws: an accepted unit drops nothing",
];

fn one(suite: &mut Suite, caller: &mut Caller, input: &[u8], more: &[&str]) {
    caller.salvage_wide(suite, input, more);
    caller.laws(suite, input);
}

/// One damage of each kind at every place.
fn everywhere(suite: &mut Suite, caller: &mut Caller, unit: &[u8]) {
    one(suite, caller, unit, &["encoded: as written"]);
    for place in 0..unit.len() {
        for bit in 0..8 {
            let mut input = unit.to_vec();
            input[place] ^= 1 << bit;
            one(suite, caller, &input, &["encoded: bit flipped"]);
        }
        one(suite, caller, &unit[..place], &["encoded: cut at the end"]);
        one(
            suite,
            caller,
            &unit[place..],
            &["encoded: cut at the front"],
        );
        for lost in 1..=4.min(unit.len() - place) {
            let input = [&unit[..place], &unit[place + lost..]].concat();
            one(suite, caller, &input, &["encoded: byte lost"]);
        }
    }
    for place in 0..=unit.len() {
        for byte in [0x00, 0x01, 0x02, 0x03, 0x04, 0x30, 0x80, 0xFF] {
            let input = [&unit[..place], &[byte], &unit[place..]].concat();
            one(suite, caller, &input, &["encoded: byte put in"]);
        }
        let input = [&unit[..place], &[0, 0, 1], &unit[place..]].concat();
        one(suite, caller, &input, &["encoded: start code put in"]);
    }
}

fn run(suite: &mut Suite) {
    let mut caller = Caller::default();
    let mut random = Random::new(31);
    for list in encoded::units() {
        everywhere(suite, &mut caller, &carry_list(&list));
    }
    // Several of them one after the other, as where a start of a PES is lost.
    let units = encoded::units();
    for first in &units {
        for second in &units {
            let carried = [carry_list(first), carry_list(second)].concat();
            one(suite, &mut caller, &carried, &[]);
        }
    }

    for round in 0..40_000 {
        let (most, longest) = if round % 16 == 0 { (64, 6) } else { (5, 10) };
        let list = any_list(&mut random, most, longest);
        let mut input = carry_closed(&mut random, &list);
        one(suite, &mut caller, &input, &["made up: as written"]);
        let mut more = vec![damage(&mut random, &mut input)];
        while random.one_in(3) {
            more.push(damage(&mut random, &mut input));
        }
        if more.len() > 1 {
            more.push("several damages");
        }
        one(suite, &mut caller, &input, &more);
    }
}
