//! All rooms for bytes and marks around the boundary.

use crate::helpers::salvage::Caller;
use crate::helpers::unit::damage::damage;
use crate::helpers::unit::{any_list, carry_closed};
use crate::kit::{Definition, Random, Suite, labels};
use reference::salvage::salvaged;

pub const SUITE: Definition = Definition {
    name: "salvage-rooms",
    labels: || {
        let mut list = labels(&["nothing kept: no room is needed for bytes"]);
        for bytes in STANDS {
            for marks in STANDS {
                list.push(format!("rooms: bytes {bytes}, marks {marks}"));
            }
        }
        list
    },
    run,
};

const STANDS: [&str; 5] = ["none", "several short", "one short", "exact", "more"];

/// Rooms around a need.
fn around(need: usize) -> Vec<usize> {
    let mut rooms = vec![
        0,
        need / 2,
        need.saturating_sub(1),
        need,
        need + 1,
        need + 9,
    ];
    rooms.dedup();
    rooms
}

fn run(suite: &mut Suite) {
    let mut caller = Caller::default();
    let mut random = Random::new(33);
    for round in 0..1500 {
        let most = if round % 10 == 0 { 60 } else { 7 };
        let list = any_list(&mut random, most, 8);
        let mut input = carry_closed(&mut random, &list);
        for _ in 0..random.below(4) {
            damage(&mut random, &mut input);
        }
        let salvaged = match salvaged(&input) {
            Ok(salvaged) => salvaged,
            _ => continue,
        };
        let mut more: &[&str] = &[];
        if salvaged.bytes.is_empty() {
            more = &["nothing kept: no room is needed for bytes"];
        }
        for bytes_room in around(salvaged.bytes.len()) {
            for marks_room in around(salvaged.marks.len()) {
                caller.salvage(suite, &input, (bytes_room, marks_room), more);
            }
        }
    }
}
