//! Descriptors rewritten: each field swept by itself, all values of the last two bytes, rooms.

use crate::helpers::descriptor::{Caller, EXAMPLE};
use crate::helpers::payload::rooms;
use crate::kit::{Definition, Random, Suite, labels};
use reference::descriptor::CONDITIONS_40;

pub const SUITE: Definition = Definition {
    name: "descriptor-rewrite",
    labels: || labels(&[CONDITIONS_40, LABELS].concat()),
    run,
};

const LABELS: &[&str] = &[
    "one field swept",
    "the last two bytes",
    "rewritten: a delay dropped",
    "rewritten: no delay",
    "rewritten, then read",
    "40 before 8",
    "8: no room",
    "8: several bytes short",
    "8: one byte short",
    "room exactly enough",
    "room more than enough",
];

/// The bits of each field behind tag and length: marker, version, the ten fields, the reserved bit,
/// whether a delay is present, and the low four bits.
const WIDTHS: [u32; 15] = [1, 7, 3, 5, 1, 1, 1, 1, 1, 1, 2, 2, 1, 1, 4];

/// Descriptors that are right: without delay and with one, all fields low and all high.
const BASES: [[u8; 6]; 5] = [
    EXAMPLE,
    [0x80, 0x04, 0x81, 0x00, 0x00, 0x00],
    [0x80, 0x04, 0x81, 0x00, 0x00, 0x1F],
    [0x80, 0x04, 0x81, 0xFF, 0xFF, 0xC0],
    [0x80, 0x04, 0x81, 0xFF, 0xFF, 0xD0],
];

fn run(suite: &mut Suite) {
    let mut caller = Caller::default();
    let mut random = Random::new(22);
    for base in BASES {
        let bits = u32::from_be_bytes([base[2], base[3], base[4], base[5]]);
        let mut left = 32;
        for width in WIDTHS {
            left -= width;
            let mask = ((1u32 << width) - 1) << left;
            for value in 0..1u32 << width {
                let mut bytes = base;
                let swept = bits & !mask | value << left;
                bytes[2..].copy_from_slice(&swept.to_be_bytes());
                for room in rooms(6) {
                    caller.rewrite(suite, &bytes, room, &["one field swept"]);
                }
            }
        }
        for at in 0..2 {
            for value in 0..=255 {
                let mut bytes = base;
                bytes[at] = value;
                for room in rooms(6) {
                    caller.rewrite(suite, &bytes, room, &["one field swept"]);
                }
            }
        }
        for value in 0..=u16::MAX {
            let mut bytes = base;
            bytes[4..].copy_from_slice(&value.to_be_bytes());
            caller.rewrite(suite, &bytes, 6, &["the last two bytes"]);
        }
        for length in 0..40 {
            let mut bytes = base.to_vec();
            bytes.resize(length, 0);
            for room in 0..=8 {
                caller.rewrite(suite, &bytes, room, &[]);
            }
        }
    }
    for round in 0..100_000 {
        let mut bytes = EXAMPLE;
        bytes[3..].copy_from_slice(&random.next().to_be_bytes()[..3]);
        if round % 4 == 0 {
            bytes[random.below(6)] ^= 1 << random.below(8);
        }
        caller.rewrite(suite, &bytes, random.below(9), &[]);
    }
}
