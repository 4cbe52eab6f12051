//! All lists of kinds up to length 5, as the shortest OBUs of their kinds.

use crate::helpers::obu::KINDS;
use crate::helpers::unit::{Caller, List, carry_list, kinds, lengths, shortest_obu};
use crate::kit::{Definition, Random, Suite, labels};
use reference::obu::Kind::{self, ShownAgain, Type};
use reference::order;

pub const SUITE: Definition = Definition {
    name: "unit-order",
    labels: || labels(&[order::CONDITIONS, LABELS].concat()),
    run,
};

const LABELS: &[&str] = &[
    "6: tile list",
    "check: accepted",
    "write: accepted",
    "long list",
];

fn one(suite: &mut Suite, caller: &mut Caller, kinds: &[Kind], more: &[&str]) {
    let list: List = kinds.iter().map(|&kind| shortest_obu(kind)).collect();
    let carried = carry_list(&list);
    caller.check(suite, &carried, more);
    let room = carried.len();
    caller.write(suite, &list.concat(), &lengths(&list), room, more);
}

fn run(suite: &mut Suite) {
    let mut caller = Caller::default();
    for len in 1..=5 {
        for index in 0..KINDS.len().pow(len) {
            let mut rest = index;
            let mut list = Vec::new();
            for _ in 0..len {
                list.push(KINDS[rest % KINDS.len()]);
                rest /= KINDS.len();
            }
            one(suite, &mut caller, &list, &[]);
        }
    }

    // Long lists: legal ones with up to two kinds changed, left out or put in.
    let mut random = Random::new(8);
    let others = [0, 1, 2, 3, 4, 5, 6, 7, 9, 14, 15].map(Type);
    for _ in 0..20_000 {
        let mut list = kinds(&mut random, 64);
        for _ in 0..random.below(3) {
            let place = random.below(list.len());
            let other = if random.one_in(8) {
                ShownAgain
            } else {
                random.pick(&others)
            };
            match random.below(3) {
                0 => list[place] = other,
                1 if list.len() < 64 => list.insert(place, other),
                _ if list.len() > 1 => {
                    list.remove(place);
                }
                _ => {}
            }
        }
        one(suite, &mut caller, &list, &["long list"]);
    }
}
