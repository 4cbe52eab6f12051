//! OBU headers and sizes through the library: all OBUs of one and two bytes, and size fields of all
//! widths with right and wrong values.

use crate::helpers::leb128::{form, shortest};
use crate::helpers::obu::CONDITIONS;
use crate::helpers::unit::{Caller, List, carry_list, lengths};
use crate::kit::{Definition, Random, Suite, labels};

pub const SUITE: Definition = Definition {
    name: "unit-headers",
    labels: || labels(&[CONDITIONS, LABELS].concat()),
    run,
};

const LABELS: &[&str] = &[
    "check: accepted",
    "write: accepted",
    "size right",
    "size wrong",
    "size of 9 bytes",
    "low bit set",
];

fn one(suite: &mut Suite, caller: &mut Caller, list: &List, more: &[&str]) {
    let bytes = list.concat();
    caller.check(suite, &carry_list(list), more);
    caller.write(
        suite,
        &bytes,
        &lengths(list),
        bytes.len() * 3 / 2 + 3 * list.len(),
        more,
    );
}

fn run(suite: &mut Suite) {
    let mut caller = Caller::default();
    let frame = vec![0x30];
    one(suite, &mut caller, &vec![vec![]], &[]);
    for first in 0..=255u8 {
        let more: &[&str] = if first & 1 == 1 {
            &["low bit set"]
        } else {
            &[]
        };
        one(suite, &mut caller, &vec![vec![first]], more);
        one(suite, &mut caller, &vec![vec![first], frame.clone()], more);
        for second in 0..=255 {
            one(suite, &mut caller, &vec![vec![first, second]], more);
            for third in [0, 1, 2, 0x7F, 0x80] {
                one(
                    suite,
                    &mut caller,
                    &vec![vec![first, second, third], frame.clone()],
                    more,
                );
            }
        }
    }

    // Sizes: the right value and wrong ones, in forms of every width up to 9 bytes.
    let mut random = Random::new(9);
    for obu_type in [0, 2, 5, 6, 8] {
        for extension in [false, true] {
            for len in [0, 1, 2, 3, 127, 128, 129, 200, 16_383, 16_384] {
                if len > 200 && obu_type != 6 {
                    continue;
                }
                let mut values = vec![0, 1, 127, 128, 4_294_967_295, 4_294_967_296];
                values.extend([len as u64, len as u64 + 1, len as u64 + 128, 1 << 40]);
                values.extend([(len as u64).saturating_sub(1), len as u64 + (1 << 32)]);
                for value in values {
                    for width in shortest(value)..=9 {
                        let mut obu = vec![obu_type * 8 + 2];
                        if extension {
                            obu[0] += 4;
                            obu.push(random.next() as u8);
                        }
                        obu.extend(form(value, width));
                        obu.extend(random.fill(len, |random| random.pick(&[0, 0, 1, 3, 0x80])));
                        let mut more = vec![if value == len as u64 {
                            "size right"
                        } else {
                            "size wrong"
                        }];
                        if width == 9 {
                            more.push("size of 9 bytes");
                        }
                        one(suite, &mut caller, &vec![obu, frame.clone()], &more);
                    }
                }
            }
        }
    }
}
