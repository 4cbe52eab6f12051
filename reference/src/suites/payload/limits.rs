//! Both limits of length, and one byte more.

use crate::helpers::payload::{Caller, rooms};
use crate::kit::{Definition, Random, Suite, labels};
use reference::payload::{self, ESCAPE_LIMIT, UNESCAPE_LIMIT};

pub const SUITE: Definition = Definition {
    name: "payload-limits",
    labels: || {
        labels(&[
            "2: over 1,048,576 bytes to escape",
            "2: over 1,572,864 bytes to unescape",
            "2: before 10",
            "2: before 8",
            "escape: at the limit",
            "unescape: at the limit",
            "unescape: illegal at the limit",
            "10: before 8",
            "10: at place 0",
            "10: at the payload's end",
            "8: one byte short",
            "8: no room",
            "room exactly enough",
            "room more than enough",
        ])
    },
    run,
};

/// A legal payload of exactly `len` bytes, rich in dropped bytes.
fn legal(len: usize) -> Vec<u8> {
    let mut payload = Vec::new();
    while payload.len() + 3 <= len {
        payload.extend_from_slice(&[0, 0, 3]);
    }
    payload.resize(len, 1);
    payload
}

fn run(suite: &mut Suite) {
    let mut caller = Caller::default();
    let mut random = Random::new(2);

    for len in [ESCAPE_LIMIT - 1, ESCAPE_LIMIT] {
        let even = random.fill(len, |random| random.next() as u8);
        let rich = random.fill(len, |random| random.pick(&[0, 0, 1, 3]));
        for obu in [vec![0; len], vec![0x55; len], even, rich] {
            for room in rooms(payload::escaped(&obu).len()) {
                caller.escape(suite, &obu, room, &["escape: at the limit"]);
            }
        }
    }
    for len in [
        ESCAPE_LIMIT + 1,
        ESCAPE_LIMIT + 2,
        UNESCAPE_LIMIT,
        UNESCAPE_LIMIT + 1,
    ] {
        for obu in [vec![0; len], vec![0x55; len]] {
            for room in [payload::escaped(&obu).len().min(1_900_000), len, 1, 0] {
                caller.escape(suite, &obu, room, &[]);
            }
        }
    }

    for len in [ESCAPE_LIMIT + 1, UNESCAPE_LIMIT - 1, UNESCAPE_LIMIT] {
        for payload in [vec![0x55; len], legal(len)] {
            for room in rooms(payload::unescaped(&payload).obu.len()) {
                caller.unescape(suite, &payload, room, &["unescape: at the limit"]);
            }
        }
    }
    let illegal = |len: usize| {
        let mut at_front = vec![0x55; len];
        at_front[..3].copy_from_slice(&[0, 0, 2]);
        let mut at_end = legal(len);
        at_end[len - 3..].copy_from_slice(&[0, 0, 1]);
        let mut four_at_end = vec![0x55; len];
        four_at_end[len - 4..].copy_from_slice(&[0, 0, 3, 4]);
        [vec![0; len], at_front, at_end, four_at_end]
    };
    for len in [UNESCAPE_LIMIT - 1, UNESCAPE_LIMIT] {
        for payload in illegal(len) {
            for room in [len, 1, 0] {
                caller.unescape(suite, &payload, room, &["unescape: illegal at the limit"]);
            }
        }
    }
    for len in [UNESCAPE_LIMIT + 1, UNESCAPE_LIMIT + 2] {
        for room in [len, 1, 0] {
            for payload in illegal(len) {
                caller.unescape(suite, &payload, room, &[]);
            }
            caller.unescape(suite, &vec![0x55; len], room, &[]);
            caller.unescape(suite, &legal(len), room, &[]);
        }
    }
}
