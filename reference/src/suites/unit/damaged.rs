//! Valid units and lists, damaged by flips, cuts, insertions and the like.

use crate::helpers::unit::damage::{DAMAGES, damage};
use crate::helpers::unit::{Caller, WALKS, any_list, carry_closed, lengths, reading_conditions};
use crate::kit::{Definition, Random, Suite, labels};

pub const SUITE: Definition = Definition {
    name: "unit-damaged",
    labels: || {
        // Damage of short units does not pass the limits of length.
        let mut list = labels(&reading_conditions());
        list.retain(|label| !label.starts_with("2: over"));
        list.extend(labels(&[
            "several damages",
            "2: lengths do not add up",
            "check: accepted",
            "read: accepted",
            "write: accepted",
        ]));
        list.extend(labels(&[DAMAGES, WALKS].concat()));
        list
    },
    run,
};

fn run(suite: &mut Suite) {
    let mut caller = Caller::default();
    let mut random = Random::new(4);
    for round in 0..40_000 {
        let (most, longest) = if round % 16 == 0 { (64, 6) } else { (5, 10) };
        let list = any_list(&mut random, most, longest);

        let mut carried = carry_closed(&mut random, &list);
        let mut more = vec![damage(&mut random, &mut carried)];
        while random.one_in(3) {
            more.push(damage(&mut random, &mut carried));
        }
        if more.len() > 1 {
            more.push("several damages");
        }
        caller.check(suite, &carried, &more);
        caller.read_wide(suite, &carried, &more);
        caller.walk(suite, &carried, &more);
        caller.walk_as_reading(suite, &carried);

        // A list: one of its OBUs damaged, and sometimes its lengths.
        let mut list = list;
        let index = random.below(list.len());
        let how = damage(&mut random, &mut list[index]);
        let mut lengths = lengths(&list);
        if random.one_in(4) {
            let index = random.below(lengths.len());
            lengths[index] = match random.below(4) {
                0 => lengths[index].wrapping_sub(1),
                1 => lengths[index] + 1,
                2 => 0,
                _ => random.next() as usize,
            };
        }
        let bytes = list.concat();
        let room = bytes.len() * 3 / 2 + 3 * lengths.len();
        caller.write(suite, &bytes, &lengths, room, &[how]);
    }
}
