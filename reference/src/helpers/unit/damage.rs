//! Damage to bytes.

use crate::kit::Random;

/// The ways to damage bytes.
pub const DAMAGES: &[&str] = &[
    "bit flipped",
    "byte replaced",
    "cut at the end",
    "cut at the front",
    "bytes taken out",
    "bytes put in",
    "start code put in",
    "part repeated",
];

/// Damages bytes in one way and names it.
pub fn damage(random: &mut Random, bytes: &mut Vec<u8>) -> &'static str {
    if bytes.is_empty() {
        bytes.push(random.next() as u8);
        return "bytes put in";
    }
    let place = random.below(bytes.len());
    match random.below(8) {
        0 => {
            bytes[place] ^= 1 << random.below(8);
            "bit flipped"
        }
        1 => {
            bytes[place] = random.pick(&[0, 0, 1, 2, 3, 4, 0x30, 0x40, 0x80, 0xFF]);
            "byte replaced"
        }
        2 => {
            bytes.truncate(place);
            "cut at the end"
        }
        3 => {
            bytes.drain(..place % 8);
            "cut at the front"
        }
        4 => {
            let end = bytes.len().min(place + 1 + random.below(4));
            bytes.drain(place..end);
            "bytes taken out"
        }
        5 => {
            for _ in 0..1 + random.below(3) {
                bytes.insert(place, random.pick(&[0, 0, 0, 1, 2, 3, 4, 0x80, 0xFF]));
            }
            "bytes put in"
        }
        6 => {
            for &byte in [0, 0, 1].iter().rev() {
                bytes.insert(place, byte);
            }
            "start code put in"
        }
        _ => {
            let end = bytes.len().min(place + 1 + random.below(6));
            let part = bytes[place..end].to_vec();
            bytes.splice(place..place, part);
            "part repeated"
        }
    }
}
