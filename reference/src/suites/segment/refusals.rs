//! Every refusal of a segment by every condition, and in pairs: of two rules that are broken the one
//! tried earlier is given.

use crate::helpers::segment::faults::base;
use crate::helpers::segment::pairs::{pair, single};
use crate::helpers::segment::{Caller, closing_labels, faults as segment_faults};
use crate::kit::{Definition, Suite, labels};

pub const SUITE: Definition = Definition {
    name: "segment-refusals",
    labels: || {
        let mut list = labels(&segment_faults::conditions());
        list.extend(labels(&["accepted", "rooms: one of several"]));
        list.extend(closing_labels(&[
            "9: no start code at the head",
            "1: more than 64 OBUs",
            "3: no bytes",
            "10: 00 00 00",
            "10: 00 00 02",
            "10: 00 00 03 then above 3",
            "4: forbidden bit",
            "5: size above what remains",
            "5: delimiter with content",
            "6: tile list",
            "42: reduced_still_picture_header",
            "7: after a frame",
            "7: ends before the frame",
        ]));
        list.extend(pair_labels());
        list
    },
    run,
};

/// The pairs that can stand together at one packet: in each list a number comes before those behind
/// it. 2, of a closing, takes a unit of its length, and 34 its 1,024 units: other suites have them.
fn pair_labels() -> Vec<String> {
    let closing: &[u64] = &[1, 3, 4, 5, 6, 42, 7, 9, 10];
    let mut orders: Vec<Vec<u64>> = vec![
        vec![21, 22],
        vec![21, 22, 23, 24, 25],
        vec![21, 22, 23, 24, 26],
        vec![21, 22, 23, 24, 27],
        vec![21, 22, 23, 24, 28],
        vec![21, 22, 23, 24, 29, 31, 8],
        vec![21, 22, 23, 24, 30, 31, 8],
    ];
    for &number in closing {
        orders.push(vec![21, 22, 23, 24, 32, number, 29, 8]);
        orders.push(vec![21, 22, 23, 24, 32, number, 30, 8]);
    }
    let mut labels = Vec::new();
    for order in orders {
        for (i, first) in order.iter().enumerate() {
            for second in &order[i + 1..] {
                labels.push(format!("{first} before {second} at one packet"));
            }
        }
    }
    // An earlier packet comes first, whatever the numbers are; 20 comes before all, 33 after all.
    for first in [21, 22, 23, 24, 25, 26, 27, 28, 29, 30, 31, 8, 32, 9, 7] {
        labels.push(format!("{first} before 21 at a later packet"));
        labels.push(format!("{first} before 8 at a later packet"));
        labels.push(format!("20 before {first}"));
    }
    for second in [22, 23, 24, 25, 26, 29, 30, 8] {
        labels.push(format!("{second} before 32 at a later packet"));
        labels.push(format!("{second} before 9 at a later packet"));
    }
    for first in [20, 21, 22, 23, 24, 25] {
        labels.push(format!("{first} before 33"));
    }
    labels
}

fn run(suite: &mut Suite) {
    let mut caller = Caller::default();
    let base = base();
    let bytes = base.bytes();
    let rooms = base.rooms_for(&bytes);
    caller.check_as(suite, &bytes, rooms, &[], |verdict| verdict.is_ok());

    let faults = segment_faults::all();
    for fault in &faults {
        single(suite, &mut caller, &base, fault);
        // With too little room too, for some output or for all: only 8 can come of it.
        for short in 0..3 {
            let mut base = base.clone();
            (fault.apply)(&mut base);
            let bytes = base.bytes();
            let mut rooms = base.rooms_for(&bytes);
            match short {
                0 => rooms.bytes = 0,
                1 => rooms.lengths = 0,
                _ => rooms.times = 0,
            }
            caller.check(suite, &bytes, rooms, &["rooms: one of several"]);
        }
    }
    // All pairs, each in both orders of putting them in where they show at one packet.
    for (i, first) in faults.iter().enumerate() {
        for (j, second) in faults.iter().enumerate() {
            let at_one = first.moment == second.moment;
            if i != j && (i < j || at_one) {
                pair(suite, &mut caller, &base, first, second);
            }
        }
    }
}
