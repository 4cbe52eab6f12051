//! Valid segments: accepted, with what is known from their making.

use crate::helpers::segment::make::{FEATURES, Made, make};
use crate::helpers::segment::{Caller, exact, wide};
use crate::kit::{Definition, Random, Suite, labels};
use reference::comparison::{Comparison, Found};
use reference::compose::{sample, segment};
use reference::crc::crc;
use reference::segment::Totals;

pub const SUITE: Definition = Definition {
    name: "segment-valid",
    labels: || labels(&[FEATURES, LABELS].concat()),
    run,
};

const LABELS: &[&str] = &[
    "accepted",
    "exact rooms",
    "wide rooms",
    "no rooms",
    "the sample",
];

fn one(suite: &mut Suite, caller: &mut Caller, made: &Made) {
    let bytes = segment(&made.packets);
    let rooms = exact(&made.accepted.units);
    let kind = if made.accepted.units.is_empty() {
        "no rooms"
    } else {
        "exact rooms"
    };
    for (rooms, kind) in [(rooms, kind), (wide(&bytes), "wide rooms")] {
        let more = [&made.features[..], &[kind]].concat();
        caller.check_as(suite, &bytes, rooms, &more, |verdict| {
            verdict.as_ref() == Ok(&made.accepted)
        });
    }
}

fn run(suite: &mut Suite) {
    let mut caller = Caller::default();
    let mut random = Random::new(30);

    // The check value of CRC-32 with this polynomial, ones at the start and no last change.
    let value = crc(b"123456789");
    suite.case(&[], value == 0x0376_E6E7, || format!("CRC: {value:08X}"));

    let bytes = sample();
    let rooms = wide(&bytes);
    caller.check_as(suite, &bytes, rooms, &["the sample"], |verdict| {
        let accepted = match verdict {
            Ok(accepted) => accepted,
            _ => return false,
        };
        let times: Vec<(u64, u64)> = accepted.units.iter().map(|u| (u.pts, u.dts)).collect();
        let totals = Totals {
            null: 2,
            section: 4,
            av1: 14,
            other_listed: 2,
            unlisted: 1,
        };
        // Its sequence header has level 9, its descriptor level 8.
        let comparison = Comparison {
            unit: 0,
            found: Found::Field(1),
        };
        (accepted.program, accepted.pid) == (1, 0x100)
            && accepted.comparison == Some(comparison)
            && accepted.totals == totals
            && times == [(990_000, 986_997), (993_003, 993_003), (996_006, 996_006)]
    });

    for _ in 0..12_000 {
        let made = make(&mut random, 3, 40);
        one(suite, &mut caller, &made);
    }
    for _ in 0..3000 {
        let made = make(&mut random, 8, 600);
        one(suite, &mut caller, &made);
    }
    for _ in 0..150 {
        let made = make(&mut random, 40, 4000);
        one(suite, &mut caller, &made);
    }
    for _ in 0..10 {
        let made = make(&mut random, 60, 8000);
        one(suite, &mut caller, &made);
    }
}
