//! Random and zero-rich strings of up to a mebibyte.

use crate::helpers::payload::{COMMON, Caller, ROOMS, rooms};
use crate::kit::{Definition, Random, Suite, labels};
use reference::payload::{self, ESCAPE_LIMIT, UNESCAPE_LIMIT};

pub const SUITE: Definition = Definition {
    name: "payload-random",
    labels: || labels(&[COMMON, ROOMS, LABELS].concat()),
    run,
};

const LABELS: &[&str] = &["full size", "spoilt payload", "random bytes as payload"];

/// Bytes of one of several makes, from even ones to zeros alone.
fn bytes(random: &mut Random, len: usize) -> Vec<u8> {
    match random.below(6) {
        0 => random.fill(len, |random| random.next() as u8),
        1 => random.fill(len, |random| random.pick(&[0, 0, 0, 1, 2, 3, 4, 255])),
        2 => random.fill(len, |random| random.pick(&[0, 0, 3])),
        3 => random.fill(len, |random| {
            if random.one_in(50) {
                random.next() as u8
            } else {
                0
            }
        }),
        4 => random.fill(len, |random| {
            if random.one_in(50) {
                0
            } else {
                random.next() as u8
            }
        }),
        _ => vec![0; len],
    }
}

/// Puts a forbidden sequence at one place or at several.
fn spoil(random: &mut Random, payload: &mut [u8]) {
    for _ in 0..1 + random.below(3) {
        let place = match random.below(4) {
            0 => 0,
            1 => payload.len() - 4,
            _ => random.below(payload.len() - 3),
        };
        let part = &mut payload[place..];
        match random.below(4) {
            0 => part[..3].copy_from_slice(&[0, 0, 0]),
            1 => part[..3].copy_from_slice(&[0, 0, 1]),
            2 => part[..3].copy_from_slice(&[0, 0, 2]),
            _ => part[..4].copy_from_slice(&[0, 0, 3, 4 + (random.next() % 252) as u8]),
        }
    }
}

/// One OBU, its payload, a payload with a closing 03 where it can have one, and spoilt ones.
fn one(suite: &mut Suite, caller: &mut Caller, random: &mut Random, len: usize, label: &[&str]) {
    let obu = bytes(random, len);
    let mut payload = payload::escaped(&obu);
    for room in rooms(payload.len()) {
        caller.escape(suite, &obu, room, label);
    }
    for room in rooms(obu.len()) {
        caller.unescape(suite, &payload, room, label);
    }
    if payload.ends_with(&[0, 0]) && payload.len() < UNESCAPE_LIMIT {
        payload.push(3);
        for room in rooms(obu.len()) {
            caller.unescape(suite, &payload, room, label);
        }
    }
    if payload.len() >= 4 {
        spoil(random, &mut payload);
        let labels = [label, &["spoilt payload"]].concat();
        for room in [payload.len(), 0, len] {
            caller.unescape(suite, &payload, room, &labels);
        }
    }
    let labels = [label, &["random bytes as payload"]].concat();
    caller.unescape(suite, &obu, obu.len(), &labels);
}

fn run(suite: &mut Suite) {
    let mut caller = Caller::default();
    let mut random = Random::new(1);
    for _ in 0..3000 {
        let len = random.below(64);
        one(suite, &mut caller, &mut random, len, &[]);
    }
    for _ in 0..240 {
        let len = random.length(ESCAPE_LIMIT);
        one(suite, &mut caller, &mut random, len, &[]);
    }
    for _ in 0..8 {
        one(
            suite,
            &mut caller,
            &mut random,
            ESCAPE_LIMIT,
            &["full size"],
        );
    }
}
