//! Rooms around every boundary of the three outputs.

use crate::helpers::segment::make::{Made, make};
use crate::helpers::segment::{Caller, exact, wide};
use crate::kit::{Definition, Random, Suite, labels};
use reference::compose::{Load, segment};
use reference::segment::{CONDITIONS_8, Rooms};

pub const SUITE: Definition = Definition {
    name: "segment-rooms",
    labels: || labels(&[CONDITIONS_8, LABELS].concat()),
    run,
};

const LABELS: &[&str] = &[
    "accepted",
    "bytes",
    "lengths",
    "times",
    "all three",
    "exactly enough",
    "one short",
    "one more",
    "none",
];

/// How a room stands to its need.
fn stand(room: usize, need: usize) -> &'static str {
    if room == need {
        "exactly enough"
    } else if room == 0 {
        "none"
    } else if room + 1 == need {
        "one short"
    } else if room == need + 1 {
        "one more"
    } else {
        "another room"
    }
}

/// The places in the output where the bytes of a unit or of a packet end, and some others.
fn boundaries(random: &mut Random, made: &Made) -> Vec<usize> {
    let need = exact(&made.accepted.units);
    let mut boundaries = vec![0, need.bytes];
    let mut at = 0;
    for unit in &made.accepted.units {
        boundaries.push(at);
        at += unit.bytes.len();
    }
    for _ in 0..20 {
        boundaries.push(random.below(need.bytes + 1));
    }
    let mut at = 0;
    for packet in &made.packets {
        match &packet.load {
            Load::Bytes(payload) if packet.pid == made.accepted.pid => {
                at += payload.len();
                boundaries.push(at.min(need.bytes));
            }
            _ => {}
        }
    }
    boundaries
}

fn run(suite: &mut Suite) {
    let mut caller = Caller::default();
    let mut random = Random::new(35);
    for round in 0..500 {
        let made = make(&mut random, 4, if round % 4 == 0 { 300 } else { 30 });
        let bytes = segment(&made.packets);
        let wide = wide(&bytes);
        let need = exact(&made.accepted.units);

        let boundaries = boundaries(&mut random, &made);
        for boundary in boundaries {
            for room in boundary.saturating_sub(2)..=boundary + 2 {
                let rooms = Rooms {
                    bytes: room,
                    ..wide
                };
                let labels = ["bytes", stand(room, need.bytes)];
                caller.check(suite, &bytes, rooms, &labels);
            }
        }
        for room in 0..=need.lengths + 2 {
            let rooms = Rooms {
                lengths: room,
                ..wide
            };
            let labels = ["lengths", stand(room, need.lengths)];
            caller.check(suite, &bytes, rooms, &labels);
        }
        for room in 0..=need.times + 3 {
            let rooms = Rooms {
                times: room,
                ..wide
            };
            let labels = ["times", stand(room, need.times)];
            caller.check(suite, &bytes, rooms, &labels);
        }
        for _ in 0..20 {
            let rooms = Rooms {
                bytes: (need.bytes + 2).saturating_sub(random.below(5)),
                lengths: (need.lengths + 1).saturating_sub(random.below(3)),
                times: (need.times + 2).saturating_sub(random.below(5)),
            };
            caller.check(suite, &bytes, rooms, &["all three"]);
        }
    }
}
