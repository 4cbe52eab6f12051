//! Descriptors read: all values of every two bytes, all lengths, and those that are right written
//! again.

use crate::helpers::descriptor::{Caller, EXAMPLE};
use crate::helpers::under_test;
use crate::kit::{Definition, Random, Suite, labels};
use reference::descriptor::CONDITIONS_40;

pub const SUITE: Definition = Definition {
    name: "descriptor-read",
    labels: || labels(&[CONDITIONS_40, LABELS].concat()),
    run,
};

const LABELS: &[&str] = &[
    "read: with delay",
    "read: without delay",
    "read, then written: the same",
    "read, then written: not the same",
    "01's example",
    "no bytes",
    "one byte short",
    "one byte more",
];

/// A descriptor with a delay.
const WITH_DELAY: [u8; 6] = [0x80, 0x04, 0x81, 0xBF, 0xF3, 0x9A];

fn run(suite: &mut Suite) {
    let mut caller = Caller::default();
    let mut random = Random::new(20);
    // 01's example, with its fields.
    caller.read(suite, &EXAMPLE, &["01's example"]);
    let read = under_test::read_descriptor(&EXAMPLE);
    let fixed = read.number == 0
        && read.field == [0, 8, 0, 0, 0, 0, 1, 1, 0, 3]
        && (read.delay_present, read.delay) == (0, 0);
    suite.case(&["01's example"], fixed, || {
        format!("01's example: {read:?}")
    });

    // All values of every two bytes, around descriptors with and without a delay.
    for base in [EXAMPLE, WITH_DELAY] {
        for first in 0..6 {
            for second in first + 1..6 {
                for value in 0..=u16::MAX {
                    let mut bytes = base;
                    [bytes[first], bytes[second]] = value.to_be_bytes();
                    caller.read(suite, &bytes, &[]);
                    if first >= 3 {
                        caller.read_then_write(suite, &bytes);
                    }
                }
            }
        }
    }
    // All values of the three bytes behind the version.
    for value in 0..1u32 << 24 {
        let mut bytes = EXAMPLE;
        bytes[3..].copy_from_slice(&value.to_be_bytes()[1..]);
        caller.read(suite, &bytes, &[]);
    }
    for _ in 0..200_000 {
        let mut bytes = EXAMPLE;
        bytes[3..].copy_from_slice(&random.next().to_be_bytes()[..3]);
        caller.read(suite, &bytes, &[]);
        caller.read_then_write(suite, &bytes);
    }
    for _ in 0..50_000 {
        let bytes = random.next().to_be_bytes();
        caller.read(suite, &bytes[..6], &[]);
    }

    lengths(suite, &mut caller);
}

/// All lengths up to 300, cut from and added to descriptors that are right.
fn lengths(suite: &mut Suite, caller: &mut Caller) {
    for base in [EXAMPLE, WITH_DELAY] {
        for length in (0..300).chain([1000, 65_542, 100_000]) {
            let label = match length {
                0 => "no bytes",
                5 => "one byte short",
                7 => "one byte more",
                _ => "a length",
            };
            for fill in [0, 0xFF, 0x04, 0x80] {
                let mut bytes = base.to_vec();
                bytes.resize(length, fill);
                caller.read(suite, &bytes, &[label]);
                if length >= 2 {
                    // The length byte that says so.
                    bytes[1] = (length - 2) as u8;
                    caller.read(suite, &bytes, &[label]);
                }
            }
        }
        for cut in 1..6 {
            caller.read(suite, &base[cut..], &[]);
        }
    }
}
