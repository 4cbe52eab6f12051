//! Every change of one byte of small sheets, every cut of them, and bytes more.

use crate::helpers::segment::wide;
use crate::helpers::sheet::{Caller, any_sheet};
use crate::kit::{Definition, Random, Suite, labels};
use reference::compose::sample;
use reference::sheet::{self, CONDITIONS, Sheet};

pub const SUITE: Definition = Definition {
    name: "sheet-bytes",
    labels: || {
        let mut list = labels(&[
            "read",
            "every byte changed",
            "every length",
            "more bytes",
            "any bytes",
            "the sample's sheet",
        ]);
        // No sheet here is long enough for it.
        let many = "45: a unit of more than 64 OBUs";
        list.extend(labels(CONDITIONS).into_iter().filter(|own| own != many));
        list
    },
    run,
};

fn run(suite: &mut Suite) {
    let mut caller = Caller::default();
    let mut random = Random::new(602);
    let bytes = sample();
    let written = sheet::write(0, &bytes, wide(&bytes), 10_000).sheet;
    let mut sheets = vec![
        written.expect("the sample is right"),
        Sheet::default().bytes(),
    ];
    for (streams, units) in [(1, 1), (2, 2), (0, 3), (1, 4)] {
        sheets.push(any_sheet(&mut random, streams, units, 3).bytes());
    }
    for (index, sheet) in sheets.iter().enumerate() {
        let more: &[&str] = if index == 0 {
            &["the sample's sheet"]
        } else {
            &[]
        };
        caller.all(suite, sheet, more);
        for at in 0..sheet.len() {
            for byte in 0..=255 {
                if byte == sheet[at] {
                    continue;
                }
                let mut changed = sheet.clone();
                changed[at] = byte;
                caller.read_wide(suite, &changed, &["every byte changed"]);
                if byte % 16 == 3 {
                    caller.find(suite, &changed, 0, &["every byte changed"]);
                    caller.find(suite, &changed, 1, &["every byte changed"]);
                }
            }
        }
        for length in 0..=sheet.len() {
            caller.all(suite, &sheet[..length], &["every length"]);
        }
        for more in 1..80 {
            let mut longer = sheet.clone();
            longer.resize(sheet.len() + more, random.pick(&[0, 1, 0xFF]));
            caller.all(suite, &longer, &["more bytes"]);
        }
    }
    changed_numbers(suite, &mut caller, &mut random);
}

/// Several numbers of a sheet changed.
fn changed_numbers(suite: &mut Suite, caller: &mut Caller, random: &mut Random) {
    for _ in 0..60_000 {
        let (streams, units) = (random.below(4), random.below(5));
        let sheet = any_sheet(random, streams, units, 4);
        let mut bytes = sheet.bytes();
        for _ in 0..random.below(4) {
            let at = 8 * random.below(bytes.len() / 8);
            let number: u64 = match random.below(4) {
                0 => random.below(4) as u64,
                1 => random.below(70_000) as u64,
                2 => 1 << random.below(64),
                _ => random.next(),
            };
            bytes[at..at + 8].copy_from_slice(&number.to_be_bytes());
        }
        caller.read_wide(suite, &bytes, &["any bytes"]);
        caller.find(suite, &bytes, units as u64 / 2, &["any bytes"]);
    }
}
