//! Leading bytes of every kind, and every short string over bytes that matter.

use crate::helpers::obu::strings;
use crate::helpers::salvage::{Caller, RESULTS, tsobu};
use crate::helpers::unit::carry;
use crate::kit::{Definition, Random, Suite, labels};
use reference::unit::{START_CODE, start_codes};

pub const SUITE: Definition = Definition {
    name: "salvage-leading",
    labels: || labels(&[RESULTS, LABELS].concat()),
    run,
};

const LABELS: &[&str] = &[
    "no start code: all bytes are leading",
    "no start code: no bytes at all",
    "leading zeros",
    "leading bytes that end in one zero",
    "leading bytes that end in 00 00",
    "leading bytes that end in 00 00 03",
    "leading bytes that end in 00 00 02",
    "leading bytes of an OBU",
    "leading bytes, many",
    "every short string",
];

/// What leading bytes are like.
fn label(leading: &[u8]) -> Option<&'static str> {
    match leading {
        [] => None,
        _ if leading.iter().all(|&byte| byte == 0) => Some("leading zeros"),
        [.., 0, 0, 3] => Some("leading bytes that end in 00 00 03"),
        [.., 0, 0, 2] => Some("leading bytes that end in 00 00 02"),
        [.., 0, 0] => Some("leading bytes that end in 00 00"),
        [.., 0] => Some("leading bytes that end in one zero"),
        [0x30 | 0x32, ..] => Some("leading bytes of an OBU"),
        _ if leading.len() > 1000 => Some("leading bytes, many"),
        _ => None,
    }
}

fn one(suite: &mut Suite, caller: &mut Caller, input: &[u8], more: &[&str]) {
    let mut labels = more.to_vec();
    match start_codes(input).first() {
        Some(&first) => labels.extend(label(&input[..first])),
        None if input.is_empty() => labels.push("no start code: no bytes at all"),
        None => labels.push("no start code: all bytes are leading"),
    }
    caller.salvage_wide(suite, input, &labels);
    caller.laws(suite, input);
}

fn run(suite: &mut Suite) {
    let mut caller = Caller::default();

    // Every string of up to four bytes in front of units, and alone.
    let frame = tsobu(&[0x30, 0xAA]);
    let bad = tsobu(&[0x40]);
    let two = carry(&[vec![0x12, 0x00], vec![0x30, 0x00, 0x00, 0x03]]);
    for len in 0..=4 {
        for leading in strings(&[0x00, 0x01, 0x02, 0x03, 0x30, 0xFF], len) {
            for unit in [&[][..], &frame, &bad, &two, &START_CODE] {
                one(suite, &mut caller, &[&leading, unit].concat(), &[]);
            }
        }
    }
    // Zeros, any number of them; and many bytes.
    let mut random = Random::new(32);
    for len in 1..300 {
        one(suite, &mut caller, &[&vec![0; len], &two[..]].concat(), &[]);
        one(suite, &mut caller, &vec![0; len], &[]);
        let leading = random.fill(len * 10, |random| 1 + random.below(255) as u8);
        one(suite, &mut caller, &[&leading, &two[..]].concat(), &[]);
        one(suite, &mut caller, &leading, &[]);
    }

    // Every short string over a few bytes.
    for (alphabet, longest) in [
        (&[0x00, 0x01, 0x03, 0x30][..], 9),
        (&[0x00, 0x01, 0x02, 0x03, 0x08, 0x10, 0x80], 6),
    ] {
        for len in 0..=longest {
            for input in strings(alphabet, len) {
                one(suite, &mut caller, &input, &["every short string"]);
            }
        }
    }
}
