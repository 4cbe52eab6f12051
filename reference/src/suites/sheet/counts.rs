//! Counts whose products and sums would wrap, so that a length in 64 bits would come out right.

use crate::helpers::sheet::{Caller, any_sheet};
use crate::kit::{Definition, Random, Suite, labels};

pub const SUITE: Definition = Definition {
    name: "sheet-counts",
    labels: || {
        labels(&[
            "read",
            "the sum wraps to the length",
            "other counts",
            "45: more than 12 streams",
            "45: more than 1,024 units",
            "45: more than 65,536 OBUs",
            "45: shorter than the counts give",
            "45: longer than the counts give",
        ])
    },
    run,
};

/// The length that three counts would give in 64 bits.
fn wrapped(counts: [u64; 3]) -> u64 {
    24u64
        .wrapping_add(counts[0].wrapping_mul(16))
        .wrapping_add(counts[1].wrapping_mul(32))
        .wrapping_add(counts[2].wrapping_mul(32))
}

fn run(suite: &mut Suite) {
    let mut caller = Caller::default();
    let mut random = Random::new(603);
    for _ in 0..400 {
        let (streams, units) = (random.below(4), random.below(4));
        let sheet = any_sheet(&mut random, streams, units, 2);
        let own = sheet.counts();
        let length = sheet.bytes().len() as u64;
        let high = [0, 1 << 58, 1 << 59, 1 << 60, 1 << 61, 1 << 63, u64::MAX];
        for first in high {
            for second in high {
                for third in high {
                    let counts = [
                        own[0].wrapping_add(first),
                        own[1].wrapping_add(second),
                        own[2].wrapping_add(third),
                    ];
                    let label = if counts != own && wrapped(counts) == length {
                        "the sum wraps to the length"
                    } else {
                        "other counts"
                    };
                    let bytes = sheet.bytes_with(counts);
                    caller.read_wide(suite, &bytes, &[label]);
                    caller.find(suite, &bytes, 0, &[label]);
                }
            }
        }
        // One count taken from another, so that the length is right.
        for counts in [
            [own[0] + 2, own[1].wrapping_sub(1), own[2]],
            [own[0].wrapping_sub(2), own[1] + 1, own[2]],
            [own[0], own[1] + 1, own[2].wrapping_sub(1)],
            [own[0], own[1].wrapping_sub(1), own[2] + 1],
        ] {
            let bytes = sheet.bytes_with(counts);
            caller.all(suite, &bytes, &["other counts"]);
        }
    }
}
