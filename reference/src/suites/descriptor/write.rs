//! Descriptors written: every field past its width, rooms; and read again.

use crate::helpers::descriptor::{Caller, highest};
use crate::helpers::payload::ROOMS;
use crate::kit::{Definition, Random, Suite, labels};
use reference::descriptor::FIELDS;

pub const SUITE: Definition = Definition {
    name: "descriptor-write",
    labels: || {
        let mut list: Vec<String> = FIELDS.iter().map(|field| field.past.to_string()).collect();
        list.extend(labels(&[
            "41 before 8",
            "written, then read",
            "one past the width",
            "two fields past their width",
        ]));
        list.extend(labels(ROOMS));
        list
    },
    run,
};

fn run(suite: &mut Suite) {
    let mut caller = Caller::default();
    let mut random = Random::new(21);
    let highest = highest();
    let bases = [[0; 10], highest, [0, 8, 0, 0, 0, 0, 1, 1, 0, 3]];

    // Every value of every field, with all rooms.
    for base in bases {
        for (index, &top) in highest.iter().enumerate() {
            for value in 0..=255 {
                let mut fields = base;
                fields[index] = value;
                let more: &[&str] = if u32::from(value) == u32::from(top) + 1 {
                    &["one past the width"]
                } else {
                    &[]
                };
                for room in (0..=8).chain([1000]) {
                    caller.write(suite, &fields, room, more);
                }
            }
        }
    }
    // Two fields past their width.
    for first in 0..10 {
        for second in first + 1..10 {
            for (a, b) in [(1, 1), (128, 1), (1, 200), (50, 50)] {
                let mut fields = [0; 10];
                fields[first] = highest[first].saturating_add(a);
                fields[second] = highest[second].saturating_add(b);
                for room in [0, 5, 6, 7] {
                    caller.write(suite, &fields, room, &["two fields past their width"]);
                }
            }
        }
    }
    // Any values inside the widths, and some with one outside.
    for round in 0..300_000 {
        let mut fields = [0; 10];
        for (value, &top) in fields.iter_mut().zip(&highest) {
            *value = random.below(usize::from(top) + 1) as u8;
        }
        if round % 8 == 0 {
            fields[random.below(10)] = random.next() as u8;
        }
        caller.write(suite, &fields, 6, &[]);
    }
}
