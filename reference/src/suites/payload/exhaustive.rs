//! Every string of up to seven bytes over 0, 1, 2, 3, 4 and 255, escaped and unescaped.

use crate::helpers::obu::strings;
use crate::helpers::payload::{COMMON, Caller, ROOMS, rooms};
use crate::kit::{Definition, Suite, labels};
use reference::payload;

pub const SUITE: Definition = Definition {
    name: "payload-exhaustive",
    labels: || labels(&[COMMON, ROOMS].concat()),
    run,
};

const ALPHABET: [u8; 6] = [0, 1, 2, 3, 4, 255];
const LONGEST: usize = 7;

fn run(suite: &mut Suite) {
    let mut caller = Caller::default();
    for len in 0..=LONGEST {
        for bytes in strings(&ALPHABET, len) {
            for room in rooms(payload::escaped(&bytes).len()) {
                caller.escape(suite, &bytes, room, &[]);
            }
            if payload::first_forbidden(&bytes).is_some() {
                caller.unescape(suite, &bytes, bytes.len(), &[]);
                caller.unescape(suite, &bytes, 0, &[]);
            } else {
                for room in rooms(payload::unescaped(&bytes).obu.len()) {
                    caller.unescape(suite, &bytes, room, &[]);
                }
            }
        }
    }
}
