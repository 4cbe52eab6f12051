//! All rooms around the boundary, of reading and of writing.

use crate::helpers::unit::{Caller, ROOMS, any_list, carry_closed, carry_list, lengths};
use crate::kit::{Definition, Random, Suite, labels};

pub const SUITE: Definition = Definition {
    name: "unit-rooms",
    labels: || labels(&[ROOMS, LABELS].concat()),
    run,
};

const LABELS: &[&str] = &[
    "read: accepted",
    "write: accepted",
    "8: one byte short",
    "8: no room",
    "8: several bytes short",
    "room exactly enough",
    "room more than enough",
];

fn run(suite: &mut Suite) {
    let mut caller = Caller::default();
    let mut random = Random::new(5);
    for round in 0..120 {
        let most = if round % 10 == 0 { 64 } else { 6 };
        let list = any_list(&mut random, most, 8);
        let bytes = list.concat();

        // Every room up to some more than the need, or those around its edges where that is many.
        let carried = carry_list(&list);
        for room in edges(carried.len()) {
            caller.write(suite, &bytes, &lengths(&list), room, &[]);
        }
        let carried = carry_closed(&mut random, &list);
        for bytes_room in edges(bytes.len()) {
            for lengths_room in edges(list.len()) {
                caller.read(suite, &carried, (bytes_room, lengths_room), &[]);
            }
        }
    }
}

/// Rooms from none to three more than the need; of a large need only those at both ends.
fn edges(need: usize) -> Vec<usize> {
    (0..=need + 3)
        .filter(|&room| need <= 20 || room < 5 || room + 8 > need)
        .collect()
}
