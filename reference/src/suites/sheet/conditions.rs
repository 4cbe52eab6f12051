//! The conditions of 45: each by itself, at its boundary and past it, and in pairs.

use crate::helpers::sheet::Caller;
use crate::kit::{Definition, Suite, labels};
use reference::sheet::{CONDITIONS, MOST_LISTED_TIME, Obu, Sheet, Stream, Unit, accept};

pub const SUITE: Definition = Definition {
    name: "sheet-conditions",
    labels: || labels(&[CONDITIONS, LABELS].concat()),
    run,
};

const LABELS: &[&str] = &[
    "read",
    "found",
    "no such unit",
    "looked for in a bad sheet",
    "at the boundary",
    "past the boundary",
    "two at the boundary",
    "one at the boundary, one past it",
    "two past the boundary",
    "45 before 8",
    "each change is what it is to be",
];

/// A sheet whose counts need not be right, with bytes more or less at its end.
#[derive(Clone)]
struct Raw {
    sheet: Sheet,
    /// What is added to each count.
    counts: [u64; 3],
    more: usize,
    less: usize,
}

impl Raw {
    fn bytes(&self) -> Vec<u8> {
        let mut counts = self.sheet.counts();
        for (count, added) in counts.iter_mut().zip(self.counts) {
            *count = count.wrapping_add(added);
        }
        let mut bytes = self.sheet.bytes_with(counts);
        bytes.resize(bytes.len() + self.more, 0);
        bytes.truncate(bytes.len().saturating_sub(self.less));
        bytes
    }
}

fn obu(unit: u64, obu_type: u64, offset: u64, length: u64) -> Obu {
    Obu {
        unit,
        obu_type,
        offset,
        length,
    }
}

/// Three streams, three units, six OBUs.
fn base() -> Raw {
    let stream = |pid, stream_type| Stream { pid, stream_type };
    let unit = |first_packet, length, pts, dts| Unit {
        first_packet,
        length,
        pts,
        dts,
    };
    Raw {
        sheet: Sheet {
            streams: vec![stream(0x100, 6), stream(0x101, 15), stream(0x102, 2)],
            units: vec![
                unit(3, 100, 9000, 8000),
                unit(7, 1000, 9100, 9100),
                unit(20, 60, MOST_LISTED_TIME, MOST_LISTED_TIME),
            ],
            obus: vec![
                obu(0, 2, 3, 2),
                obu(0, 6, 8, 90),
                obu(1, 6, 3, 900),
                obu(2, 1, 3, 10),
                obu(2, 3, 16, 2),
                obu(2, 4, 21, 30),
            ],
        },
        counts: [0; 3],
        more: 0,
        less: 0,
    }
}

type Change = Box<dyn Fn(&mut Raw)>;

/// A number of a sheet.
type Number = fn(&mut Sheet) -> &mut u64;

/// Of some numbers of the base the highest value that passes.
const HIGHEST: &[(u64, Number)] = &[
    (0x1FFE, |sheet| &mut sheet.streams[0].pid),
    (0x1FFE, |sheet| &mut sheet.streams[1].pid),
    (0x1FFE, |sheet| &mut sheet.streams[2].pid),
    (255, |sheet| &mut sheet.streams[0].stream_type),
    (255, |sheet| &mut sheet.streams[2].stream_type),
    (65_534, |sheet| &mut sheet.units[2].first_packet),
    (19, |sheet| &mut sheet.units[1].first_packet),
    (6, |sheet| &mut sheet.units[0].first_packet),
    (1_573_056, |sheet| &mut sheet.units[0].length),
    (1_573_056, |sheet| &mut sheet.units[2].length),
    (MOST_LISTED_TIME, |sheet| &mut sheet.units[0].pts),
    (MOST_LISTED_TIME, |sheet| &mut sheet.units[1].dts),
    (MOST_LISTED_TIME, |sheet| &mut sheet.units[2].pts),
    (MOST_LISTED_TIME, |sheet| &mut sheet.units[2].dts),
    (15, |sheet| &mut sheet.obus[0].obu_type),
    (15, |sheet| &mut sheet.obus[5].obu_type),
    // Payloads: the one before touches, the last ends with its unit.
    (5, |sheet| &mut sheet.obus[0].length),
    (92, |sheet| &mut sheet.obus[1].length),
    (10, |sheet| &mut sheet.obus[1].offset),
    (39, |sheet| &mut sheet.obus[5].length),
    (30, |sheet| &mut sheet.obus[5].offset),
    (13, |sheet| &mut sheet.obus[3].length),
    (6, |sheet| &mut sheet.obus[3].offset),
];

/// Changes after which the sheet is still right, and changes after which it is not.
fn changes() -> (Vec<Change>, Vec<Change>) {
    let mut at: Vec<Change> = Vec::new();
    let mut past: Vec<Change> = Vec::new();
    for &(most, number) in HIGHEST {
        at.push(Box::new(move |raw| *number(&mut raw.sheet) = most));
        for value in [most + 1, 1 << 34, 1 << 63, u64::MAX] {
            past.push(Box::new(move |raw| *number(&mut raw.sheet) = value));
        }
    }

    right_changes(|change| at.push(Box::new(change)));
    wrong_changes(|change| past.push(Box::new(change)));
    // Counts and lengths.
    for section in 0..3 {
        for added in [1, u64::MAX, 2, 1 << 59, 1 << 60, 1 << 63] {
            past.push(Box::new(move |raw| raw.counts[section] = added));
        }
    }
    for count in [1, 8, 16, 32] {
        past.push(Box::new(move |raw| raw.more = count));
        past.push(Box::new(move |raw| raw.less = count));
    }
    for count in [1 << 7, 290, 330, 350, 1000] {
        past.push(Box::new(move |raw| raw.less = count));
    }
    (at, past)
}

/// Lowest values, and lists that are just right.
fn right_changes(mut right: impl FnMut(fn(&mut Raw))) {
    right(|raw| raw.sheet.streams[1].pid = 0);
    right(|raw| raw.sheet.streams[1].pid = raw.sheet.streams[0].pid);
    right(|raw| raw.sheet.obus[0].offset = 0);
    right(|raw| raw.sheet.obus[5].offset = 18);
    right(|raw| raw.sheet.obus[4].length = 1);
    right(|raw| raw.sheet.units[0].first_packet = 0);
    right(|raw| raw.sheet.units[1].first_packet = 4);
    right(|raw| raw.sheet.units[0].length = 98);
    right(|raw| raw.sheet.streams.clear());
    right(|raw| {
        while raw.sheet.streams.len() < 12 {
            raw.sheet.streams.push(raw.sheet.streams[0]);
        }
    });
    right(|raw| raw.sheet.obus = fill(raw, 0, 64));
    right(|raw| raw.sheet.obus = fill(raw, 2, 64));
}

/// Values, lists and sums that are not right.
fn wrong_changes(mut wrong: impl FnMut(fn(&mut Raw))) {
    wrong(|raw| raw.sheet.obus[5].offset = 17);
    wrong(|raw| raw.sheet.obus[1].offset = 4);
    wrong(|raw| raw.sheet.obus[1].offset = 0);
    wrong(|raw| raw.sheet.obus[4].length = 0);
    wrong(|raw| raw.sheet.obus[0].length = 0);
    wrong(|raw| raw.sheet.units[1].first_packet = 3);
    wrong(|raw| raw.sheet.units[2].first_packet = 7);
    wrong(|raw| raw.sheet.units[2].first_packet = 0);
    wrong(|raw| raw.sheet.units[0].length = 97);
    wrong(|raw| raw.sheet.units[0].length = 0);
    wrong(|raw| {
        while raw.sheet.streams.len() < 13 {
            raw.sheet.streams.push(raw.sheet.streams[0]);
        }
    });
    wrong(|raw| raw.sheet.obus = fill(raw, 0, 65));
    wrong(|raw| raw.sheet.obus = fill(raw, 1, 65));
    wrong(|raw| raw.sheet.obus = fill(raw, 2, 65));
    // A unit without OBU: the first, one between, the last.
    wrong(|raw| raw.sheet.obus.retain(|obu| obu.unit != 0));
    wrong(|raw| raw.sheet.obus.retain(|obu| obu.unit != 1));
    wrong(|raw| raw.sheet.obus.retain(|obu| obu.unit != 2));
    wrong(|raw| raw.sheet.obus.clear());
    // Units that are none, and that go back.
    wrong(|raw| raw.sheet.obus[5].unit = 3);
    wrong(|raw| raw.sheet.obus[5].unit = u64::MAX);
    wrong(|raw| raw.sheet.obus[5].unit = 1);
    wrong(|raw| raw.sheet.obus[2].unit = 2);
    wrong(|raw| raw.sheet.obus[0].unit = 1 << 32);
    wrong(|raw| raw.sheet.obus[1].unit = 1);
    wrong(|raw| raw.sheet.obus.swap(0, 2));
    wrong(|raw| raw.sheet.obus.swap(3, 4));
    wrong(|raw| raw.sheet.units.clear());
    wrong(|raw| raw.sheet.units.truncate(2));
    // Sums that would wrap.
    wrong(|raw| {
        raw.sheet.obus[1].offset = u64::MAX;
        raw.sheet.obus[1].length = 2;
    });
    wrong(|raw| {
        raw.sheet.obus[0].offset = 1 << 63;
        raw.sheet.obus[0].length = 1 << 63;
    });
}

/// The OBUs with so many of a unit.
fn fill(raw: &Raw, unit: u64, count: u64) -> Vec<Obu> {
    let mut obus = Vec::new();
    for own in 0..3 {
        if own == unit {
            obus.extend((0..count).map(|at| obu(own, 15, at, 1)));
        } else {
            obus.extend(raw.sheet.obus.iter().filter(|obu| obu.unit == own));
        }
    }
    obus
}

fn one(suite: &mut Suite, caller: &mut Caller, raw: &Raw, label: &str) {
    let bytes = raw.bytes();
    caller.all(suite, &bytes, &[label]);
    let short = [1, 4, 4];
    let labels: &[&str] = if label == "past the boundary" {
        &["45 before 8"]
    } else {
        &[]
    };
    caller.read(suite, &bytes, short, labels);
}

fn run(suite: &mut Suite) {
    let mut caller = Caller::default();
    one(suite, &mut caller, &base(), "at the boundary");
    // Units long enough for 64 OBUs and more.
    let mut long = base();
    for unit in &mut long.sheet.units {
        unit.length += 100;
    }
    let (at, past) = changes();
    let all: Vec<(&Change, bool)> = at
        .iter()
        .map(|change| (change, true))
        .chain(past.iter().map(|change| (change, false)))
        .collect();
    // What passes does so in short units or in long ones, and so does what is refused.
    for (index, (change, right)) in all.iter().enumerate() {
        let is_right = |base: &Raw| {
            let mut raw = base.clone();
            change(&mut raw);
            accept(&raw.bytes()).is_ok()
        };
        let passed = is_right(&base()) == *right || is_right(&long) == *right;
        suite.case(&["each change is what it is to be"], passed, || {
            format!("change {index} is to be {right}")
        });
    }
    for base in [base(), long] {
        for (index, (change, right)) in all.iter().enumerate() {
            let mut raw = base.clone();
            change(&mut raw);
            let label = match right {
                true => "at the boundary",
                false => "past the boundary",
            };
            one(suite, &mut caller, &raw, label);
            for (other, other_right) in &all[..index] {
                let mut raw = base.clone();
                other(&mut raw);
                let enough = raw.sheet.units.len() == 3 && raw.sheet.obus.len() >= 6;
                if !enough || raw.sheet.streams.len() < 3 {
                    continue;
                }
                change(&mut raw);
                let label = match (right, other_right) {
                    (true, true) => "two at the boundary",
                    (false, false) => "two past the boundary",
                    _ => "one at the boundary, one past it",
                };
                one(suite, &mut caller, &raw, label);
            }
        }
    }
}
