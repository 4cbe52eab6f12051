//! Every short string over some bytes after a start code: checked, read and walked over.

use crate::helpers::obu::strings;
use crate::helpers::unit::{Caller, reading_conditions};
use crate::kit::{Definition, Suite, labels};
use reference::unit::START_CODE;

pub const SUITE: Definition = Definition {
    name: "unit-exhaustive",
    labels: || {
        let mut list = labels(&reading_conditions());
        list.retain(|label| !LONGER.contains(&label.as_str()));
        list.extend(labels(&[
            "check: accepted",
            "read: accepted",
            "walk: a payload",
            "walk: the end",
            "walk: refuses as reading, 9",
            "walk: refuses as reading, 3",
            "walk: refuses as reading, 10",
            "walk: 3: no bytes",
            "walk: 10: 00 00 00",
            "walk: 10: 00 00 02",
            "walk: 10: 00 00 03 then above 3",
        ]));
        list
    },
    run,
};

/// Conditions that take longer strings.
const LONGER: [&str; 5] = [
    "1: more than 64 OBUs",
    "2: over 1,573,056 bytes as carried",
    "2: over 1,048,576 bytes of OBUs",
    "5: leb128 over 8 bytes",
    "5: leb128 value over 4,294,967,295",
];

fn every(suite: &mut Suite, head: &[u8], alphabet: &[u8], longest: usize) {
    let mut caller = Caller::default();
    for len in 0..=longest {
        for string in strings(alphabet, len) {
            let carried = [head, &string].concat();
            caller.check(suite, &carried, &[]);
            caller.read_wide(suite, &carried, &[]);
            caller.walk(suite, &carried, &[]);
            caller.walk_as_reading(suite, &carried);
        }
    }
}

fn run(suite: &mut Suite) {
    every(suite, &[], &[0, 1, 2, 3, 0x30], 5);
    every(
        suite,
        &START_CODE,
        &[0, 1, 2, 3, 4, 0x10, 0x30, 0x36, 0x40, 0xB0],
        5,
    );
    every(suite, &START_CODE, &[0, 1, 3, 0x12, 0x32], 7);
    every(suite, &START_CODE, &[0, 1, 3, 0x30], 8);
    every(suite, &START_CODE, &[0, 1, 0x18, 0x20, 0x80], 7);
    every(suite, &START_CODE, &[0, 1, 8, 0x0A, 0x18, 0x30], 6);
}
