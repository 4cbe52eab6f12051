//! The most streams, units and OBUs that a sheet can have, and one more.

use crate::helpers::sheet::Caller;
use crate::kit::{Definition, Suite, labels};
use reference::sheet::{Obu, Sheet, Stream, Unit};

pub const SUITE: Definition = Definition {
    name: "sheet-limits",
    labels: || {
        labels(&[
            "read",
            "found",
            "no such unit",
            "12 streams",
            "13 streams",
            "1,024 units",
            "1,025 units",
            "64 OBUs a unit",
            "65 OBUs in a unit",
            "65,536 OBUs",
            "65,537 OBUs",
            "45: more than 12 streams",
            "45: more than 1,024 units",
            "45: more than 65,536 OBUs",
            "45: a unit of more than 64 OBUs",
            "rooms for 65,536 OBUs, one short",
        ])
    },
    run,
};

fn sheet(streams: u64, units: u64, obus: u64) -> Sheet {
    let mut sheet = Sheet::default();
    for index in 0..streams {
        sheet.streams.push(Stream {
            pid: index,
            stream_type: index,
        });
    }
    for index in 0..units {
        sheet.units.push(Unit {
            first_packet: 60 * index + 3,
            length: 1000,
            pts: index,
            dts: 2 * index,
        });
        for at in 0..obus {
            sheet.obus.push(Obu {
                unit: index,
                obu_type: at % 16,
                offset: 4 * at + 3,
                length: 1 + at % 4,
            });
        }
    }
    sheet
}

fn run(suite: &mut Suite) {
    let mut caller = Caller::default();
    for (streams, label) in [(12, "12 streams"), (13, "13 streams")] {
        caller.all(suite, &sheet(streams, 2, 3).bytes(), &[label]);
    }
    for (units, label) in [
        (1023, "1,023 units"),
        (1024, "1,024 units"),
        (1025, "1,025 units"),
    ] {
        caller.all(suite, &sheet(1, units, 1).bytes(), &[label]);
        let bytes = sheet(1, units, 1).bytes();
        for number in (0..units + 3).step_by(41) {
            caller.find(suite, &bytes, number, &[label]);
        }
    }
    for (obus, label) in [
        (63, "63 OBUs a unit"),
        (64, "64 OBUs a unit"),
        (65, "65 OBUs in a unit"),
    ] {
        caller.all(suite, &sheet(1, 3, obus).bytes(), &[label]);
        // Of one unit alone.
        for unit in 0..3 {
            let mut one = sheet(1, 3, 64);
            let kept = |obu: &Obu| obu.unit != unit || obu.offset < 4 * obus;
            one.obus.retain(kept);
            if obus == 65 {
                let last = one.obus.iter().rposition(|obu| obu.unit == unit);
                let at = last.expect("it has OBUs");
                let mut more = one.obus[at];
                more.offset += 4;
                one.obus.insert(at + 1, more);
            }
            caller.all(suite, &one.bytes(), &[label]);
        }
    }
    all_three(suite, &mut caller);
}

/// All three at their limits.
fn all_three(suite: &mut Suite, caller: &mut Caller) {
    let mut whole = sheet(12, 1024, 64);
    caller.all(suite, &whole.bytes(), &["65,536 OBUs"]);
    let rooms = [24, 4096, 4 * 65_536];
    caller.read(suite, &whole.bytes(), rooms, &["65,536 OBUs"]);
    let labels = ["rooms for 65,536 OBUs, one short"];
    for place in 0..3 {
        let mut short = rooms;
        short[place] -= 1;
        caller.read(suite, &whole.bytes(), short, &labels);
    }
    for last in [0, 511, 1023] {
        let mut damaged = whole.clone();
        damaged.units[last].first_packet = 65_535;
        caller.all(suite, &damaged.bytes(), &[]);
        let mut damaged = whole.clone();
        damaged.obus[64 * last + 63].length = 0;
        caller.all(suite, &damaged.bytes(), &[]);
    }
    let more = whole.obus[65_535];
    whole.obus.push(Obu {
        offset: more.offset + 4,
        ..more
    });
    caller.all(suite, &whole.bytes(), &["65,537 OBUs"]);
}
