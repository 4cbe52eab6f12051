//! Values written: every chromaticity, luminances around every rounding boundary and both limits, 49
//! by each figure, rooms.

use crate::helpers::mastering::{Caller, DISPLAYS};
use crate::helpers::payload::{ROOMS, written};
use crate::kit::{Definition, Random, Suite, hex, labels};
use reference::mastering::{FIGURES, WRITTEN, nearest};

pub const SUITE: Definition = Definition {
    name: "mastering-write",
    labels: || {
        let mut list: Vec<String> = FIGURES.iter().map(|f| f.past.to_string()).collect();
        list.extend(labels(&[
            "no half arises",
            "a known display",
            "every chromaticity",
            "chromaticity 50,000",
            "chromaticity 50,001",
            "a luminance",
            "rounded down",
            "rounded up",
            "exact",
            "the highest luminance_max",
            "the highest luminance_min",
            "one past the highest luminance_max",
            "one past the highest luminance_min",
            "far past",
            "two past",
            "49 before 8",
            "written, then read",
        ]));
        list.extend(labels(ROOMS));
        list
    },
    run,
};

/// The highest values that round to 32 bits: 167,772,159,980 is 4,294,967,295.488 / 256 in the
/// content's steps, 2,621,439,999 is 4,294,967,294.3616 / 16,384.
const HIGHEST_MAX: u64 = 167_772_159_980;
const HIGHEST_MIN: u64 = 2_621_439_999;

const BASE: [u64; 10] = [
    11_111, 22_222, 33_333, 44_444, 5_555, 6_666, 27_777, 38_888, 9_999_999, 1_111,
];

fn rounding(value: u64, place: usize) -> &'static str {
    let figure = &FIGURES[place];
    let scaled = u128::from(value) << figure.power;
    match (nearest(value, figure) * figure.steps).cmp(&scaled) {
        std::cmp::Ordering::Less => "rounded down",
        std::cmp::Ordering::Equal => "exact",
        std::cmp::Ordering::Greater => "rounded up",
    }
}

/// A value in one place of the base.
fn one(suite: &mut Suite, caller: &mut Caller, place: usize, value: u64, labels: &[&str]) {
    let mut values = BASE;
    values[place] = value;
    caller.write(suite, &values, WRITTEN, labels);
}

fn chromaticities(suite: &mut Suite, caller: &mut Caller) {
    for value in 0..=50_000 {
        // In every place, and in all places with others near it.
        let place = (value % 8) as usize;
        let labels = ["every chromaticity", rounding(value, place)];
        one(suite, caller, place, value, &labels);
        let mut values = BASE;
        for (offset, chromaticity) in values[..8].iter_mut().enumerate() {
            *chromaticity = (value + 6250 * offset as u64) % 50_001;
        }
        caller.write(suite, &values, WRITTEN, &["every chromaticity"]);
    }
    for place in 0..8 {
        for value in (0..=50_000).step_by(7) {
            one(suite, caller, place, value, &["every chromaticity"]);
        }
        one(suite, caller, place, 50_000, &["chromaticity 50,000"]);
        one(suite, caller, place, 50_001, &["chromaticity 50,001"]);
        for value in [65_535, 65_536, 1 << 32, 1 << 48, 1 << 63, u64::MAX] {
            one(suite, caller, place, value, &["far past"]);
        }
    }
}

/// Every remainder of the division by 625, which decides how a luminance rounds, at some places; and
/// the highest ones.
fn luminances(suite: &mut Suite, caller: &mut Caller) {
    for (place, highest) in [(8, HIGHEST_MAX), (9, HIGHEST_MIN)] {
        let mut froms = vec![0, 625, 6_250_000, highest - 1000, highest / 2];
        froms.extend((0..32).map(|bit| (1u64 << bit).min(highest - 1000)));
        for from in froms {
            for value in from..from + 626 {
                let labels = ["a luminance", rounding(value, place)];
                one(suite, caller, place, value, &labels);
            }
        }
        let name = FIGURES[place].name;
        for value in highest - 700..=highest + 700 {
            let label = match value {
                _ if value == highest => format!("the highest {name}"),
                _ if value == highest + 1 => format!("one past the highest {name}"),
                _ => "near the highest".to_string(),
            };
            one(suite, caller, place, value, &[&label]);
        }
        for power in 38..64 {
            for value in [(1u64 << power) - 1, 1 << power, 3 << (power - 1)] {
                one(suite, caller, place, value, &["far past"]);
            }
        }
        one(suite, caller, place, u64::MAX, &["far past"]);
    }
}

fn run(suite: &mut Suite) {
    let mut caller = Caller::default();
    let mut random = Random::new(23);

    // "no half can arise": twice the rest is never the divisor, by the remainders that there are.
    for (figure, remainders) in [(0, 50_000), (8, 10_000), (9, 10_000)] {
        let figure = &FIGURES[figure];
        for value in 0..remainders {
            let rest = (value << figure.power) % figure.steps;
            suite.case(&["no half arises"], 2 * rest != figure.steps, || {
                format!("{} {value}", figure.name)
            });
        }
    }

    for display in &DISPLAYS {
        let mut out = [0; WRITTEN];
        let values = display.values();
        let got = av1ts::mastering::write_mastering(&values, &mut out);
        let passed = got == written(WRITTEN) && out[..] == display.content();
        suite.case(&["a known display"], passed, || {
            format!("{}: {got:?} {}", display.name, hex(&out))
        });
        caller.write(suite, &values, WRITTEN, &["a known display"]);
    }
    chromaticities(suite, &mut caller);
    luminances(suite, &mut caller);

    // 49 before 8, and all rooms.
    for place in 0..10 {
        let mut past = BASE;
        past[place] = if place < 8 { 50_001 } else { 1 << 40 };
        for room in 0..=WRITTEN + 4 {
            caller.write(suite, &past, room, &[]);
            caller.write(suite, &BASE, room, &[]);
        }
        for second in place + 1..10 {
            let mut both = past;
            both[second] = if second < 8 { u64::MAX } else { 1 << 50 };
            caller.write(suite, &both, WRITTEN, &["two past"]);
            caller.write(suite, &both, 0, &["two past"]);
        }
    }
    for _ in 0..100_000 {
        let mut values = [0; 10];
        for (place, value) in values.iter_mut().enumerate() {
            let most = [50_001, HIGHEST_MAX + 2, HIGHEST_MIN + 2][place.saturating_sub(7)];
            *value = random.below(most as usize) as u64;
        }
        caller.write(suite, &values, WRITTEN, &[]);
    }
}
