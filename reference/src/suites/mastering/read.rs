//! Contents read: every value of each chromaticity, luminances of every magnitude, every form of the
//! type, and contents of another form.

use crate::helpers::leb128::form;
use crate::helpers::mastering::{Caller, DISPLAYS};
use crate::kit::{Definition, Random, Suite, labels};
use reference::mastering::{CONDITIONS_48, FIGURES, WRITTEN, double_bits};

pub const SUITE: Definition = Definition {
    name: "mastering-read",
    labels: || labels(&[CONDITIONS_48, LABELS].concat()),
    run,
};

const LABELS: &[&str] = &[
    "the double's bits",
    "a known display",
    "read",
    "a chromaticity",
    "a luminance",
    "all zeros",
    "all ones",
    "type of one byte",
    "type of eight bytes",
    "type of nine bytes",
    "no bytes",
    "one byte short",
    "one byte more",
    "a trailing byte",
    "no trailing byte",
    "two trailing bytes",
];

/// A content of ten whole numbers.
fn content(wholes: &[u32; 10]) -> Vec<u8> {
    let mut bytes = vec![0x02];
    for (whole, figure) in wholes.iter().zip(&FIGURES) {
        bytes.extend_from_slice(&whole.to_be_bytes()[4 - figure.size..]);
    }
    bytes.push(0x80);
    bytes
}

/// Numbers that are all different.
const BASE: [u32; 10] = [
    0x1122,
    0x3344,
    0x5566,
    0x7788,
    0x99AA,
    0xBBCC,
    0xDDEE,
    0xF00F,
    0x1234_5678,
    0x9ABC_DEF0,
];

/// Every whole number of 16 bits, and some of every magnitude.
fn wholes(random: &mut Random) -> Vec<u32> {
    let mut wholes: Vec<u32> = (0..=u32::from(u16::MAX)).collect();
    for bit in 0..32 {
        wholes.extend([(1u32 << bit) - 1, 1 << bit, 1 << bit | 1]);
    }
    for _ in 0..100_000 {
        wholes.push((random.next() >> (32 + random.below(32))) as u32);
    }
    wholes.push(u32::MAX);
    wholes
}

fn run(suite: &mut Suite) {
    let mut caller = Caller::default();
    let mut random = Random::new(19);
    let wholes = wholes(&mut random);

    bits(suite, &wholes);
    displays(suite, &mut caller);
    figures(suite, &mut caller, &wholes);
    let good = content(&BASE);
    types(suite, &mut caller, &good);
    every_length(suite, &mut caller, &good);
    any_bytes(suite, &mut caller, &mut random);
}

/// The bits put together by hand are those of the conversion and one division.
fn bits(suite: &mut Suite, wholes: &[u32]) {
    for &whole in wholes {
        for power in [8, 14, 16] {
            let divided = f64::from(whole) / f64::from(1u32 << power);
            let passed = double_bits(whole, power) == divided.to_bits();
            suite.case(&["the double's bits"], passed, || {
                format!("{whole} {power}")
            });
        }
    }
}

/// The displays whose contents encoders wrote.
fn displays(suite: &mut Suite, caller: &mut Caller) {
    for display in &DISPLAYS {
        let content = display.content();
        caller.read(suite, &content, &["a known display"]);
        let got = av1ts::mastering::read_mastering(&content);
        // Luminances in cd/m2: the maxima are whole, the minima the nearest.
        let (max, min) = (got.figure[8], got.figure[9]);
        let due = display.luminances.map(|steps| steps as f64 / 10_000.0);
        let passed = max == due[0] && (min - due[1]).abs() < 1.0 / 32_768.0;
        suite.case(&["a known display"], passed, || {
            format!("{}: {max} and {min}", display.name)
        });
    }
}

/// Every value of each chromaticity, and luminances, around the base.
fn figures(suite: &mut Suite, caller: &mut Caller, wholes: &[u32]) {
    for place in 0..8 {
        for value in 0..=u32::from(u16::MAX) {
            let mut wholes = BASE;
            wholes[place] = value;
            caller.read(suite, &content(&wholes), &["a chromaticity"]);
        }
    }
    for place in 8..10 {
        for &value in wholes {
            let mut wholes = BASE;
            wholes[place] = value;
            caller.read(suite, &content(&wholes), &["a luminance"]);
        }
    }
    caller.read(suite, &content(&[0; 10]), &["all zeros"]);
    caller.read(suite, &content(&[u32::MAX; 10]), &["all ones"]);
}

/// The type in forms of every width, other types, and what is no leb128.
fn types(suite: &mut Suite, caller: &mut Caller, good: &[u8]) {
    let values = [0, 1, 2, 3, 4, 5, 127, 128, 130, 256, 258];
    for value in values.into_iter().chain([1 << 32, 2 + (1 << 32)]) {
        for width in 1..=9 {
            if value >> (7 * width) != 0 {
                continue;
            }
            let label = match (value, width) {
                (2, 1) => "type of one byte",
                (2, 8) => "type of eight bytes",
                (2, 9) => "type of nine bytes",
                _ => "a type",
            };
            let bytes = [&form(value, width), &good[1..]].concat();
            caller.read(suite, &bytes, &[label]);
        }
    }
    for byte in 0..=255 {
        let mut bytes = good.to_vec();
        bytes[0] = byte;
        caller.read(suite, &bytes, &["a type"]);
        let mut bytes = good.to_vec();
        bytes[WRITTEN - 1] = byte;
        caller.read(suite, &bytes, &["a trailing byte"]);
        // A longer form of the type, with another byte behind it.
        let bytes = [&[0x82, byte], &good[1..]].concat();
        caller.read(suite, &bytes, &["a type"]);
    }
}

/// Every length, cut and filled, with types of one byte and of more.
fn every_length(suite: &mut Suite, caller: &mut Caller, good: &[u8]) {
    for width in [1, 2, 8] {
        let good = [&form(2, width), &good[1..]].concat();
        for length in (0..=good.len() + 8).chain([200]) {
            let label = match length {
                0 => "no bytes",
                _ if length + 1 == good.len() => "one byte short",
                _ if length == good.len() + 1 => "one byte more",
                _ => "a length",
            };
            for fill in [0, 0x80, 0xFF] {
                let mut bytes = good.to_vec();
                bytes.resize(length, fill);
                caller.read(suite, &bytes, &[label]);
                // With the trailing byte at the end again.
                if let Some(last) = bytes.last_mut() {
                    *last = 0x80;
                }
                caller.read(suite, &bytes, &[label]);
            }
        }
        let none = &good[..good.len() - 1];
        caller.read(suite, none, &["no trailing byte"]);
        let two = [&good[..], &[0x80]].concat();
        caller.read(suite, &two, &["two trailing bytes"]);
    }
}

/// Any bytes, most of them with the type in front.
fn any_bytes(suite: &mut Suite, caller: &mut Caller, random: &mut Random) {
    for _ in 0..50_000 {
        let len = random.below(40);
        let mut bytes = random.fill(len, |random| random.next() as u8);
        if let Some(first) = bytes.first_mut() {
            *first = random.pick(&[2, 2, 0x82, 1]);
        }
        caller.read(suite, &bytes, &[]);
    }
}
