//! Sheets of segments: written, read back, and each unit found by it; refusals of the check, and
//! rooms of the sheet around the boundary.

use crate::helpers::segment::draft::draft_of;
use crate::helpers::segment::make::{Made, make};
use crate::helpers::segment::set_up::{AV1, head_of, pmt_body};
use crate::helpers::segment::{exact, faults as segment_faults, wide};
use crate::helpers::sheet::Caller;
use crate::kit::{Definition, Random, Suite, labels};
use reference::compose::{Entry, Pes, sample, segment};
use reference::payload::unescaped;
use reference::segment::{Rooms, Unit as Carried, check_listing};
use reference::sheet::{self, Sheet};
use reference::unit;

pub const SUITE: Definition = Definition {
    name: "sheet-written",
    labels: || {
        labels(&[
            "written",
            "read",
            "found",
            "no such unit",
            "refused by the check",
            "8: sheet too short",
            "the sample",
            "no unit",
            "several units",
            "12 streams",
            "draft",
            "draft, a unit without times",
            "the sheet's room: none",
            "the sheet's room: one byte short",
            "the sheet's room: exactly enough",
            "the sheet's room: one byte more",
            "the check's 8, the sheet has room",
            "the check's 8 before the sheet's",
            "a refusal of every kind, the sheet has room",
            "a refusal of every kind, the sheet has none",
            "44: an unknown edition",
            "the other edition",
            "a payload with bytes inserted",
            "the payloads cut out",
            "1,024 units",
            "64 OBUs a unit",
        ])
    },
    run,
};

/// Writes the sheet of a segment that is accepted, into several rooms, reads it and finds its
/// units.
fn one(
    suite: &mut Suite,
    caller: &mut Caller,
    edition: u64,
    bytes: &[u8],
    made: Option<&Made>,
    more: &[&str],
) {
    let checked = check_listing(edition, bytes, wide(bytes));
    let (accepted, listing) = checked.expect("the segment is right");
    let right = Sheet::of(&accepted, &listing);
    let (rooms, need) = (exact(&accepted.units), right.bytes().len());
    if let Some(made) = made {
        suite.case(more, listing == made.listing, || {
            format!("{listing:?}, made {:?}", made.listing)
        });
    }
    for (room, label) in [
        (0, "the sheet's room: none"),
        (need - 1, "the sheet's room: one byte short"),
        (need, "the sheet's room: exactly enough"),
        (need + 1, "the sheet's room: one byte more"),
    ] {
        let labels = [more, &[label]].concat();
        caller.write(suite, edition, bytes, (rooms, room), &labels);
    }
    if rooms.bytes > 0 {
        let short = Rooms {
            bytes: rooms.bytes - 1,
            ..rooms
        };
        let labels = ["the check's 8, the sheet has room"];
        caller.write(suite, edition, bytes, (short, need), &labels);
        let labels = ["the check's 8 before the sheet's"];
        caller.write(suite, edition, bytes, (short, need - 1), &labels);
    }
    let wide_rooms = (wide(bytes), need + 50);
    let written = caller.write(suite, edition, bytes, wide_rooms, more);
    let written = written.expect("it has room");
    caller.read_wide(suite, &written, more);
    let count = accepted.units.len() as u64;
    for number in (0..count.min(20)).chain([count.saturating_sub(1), count, count + 1, u64::MAX]) {
        caller.find(suite, &written, number, more);
    }

    cut_out(suite, &written, &right, &accepted.units, more);
}

/// "payload offset and length": what they cut out is what reading takes for the OBU.
fn cut_out(suite: &mut Suite, written: &[u8], right: &Sheet, units: &[Carried], more: &[&str]) {
    let read = sheet::accept(written).expect("every written sheet is read");
    let mut passed = read == *right;
    let mut labels = [more, &["the payloads cut out"]].concat();
    let mut obus = read.obus.iter();
    for carried in units {
        for obu in unit::accept(&carried.bytes).expect("the unit is right") {
            let line = obus.next().expect("there is a line for each");
            let from = line.offset as usize;
            let payload = &carried.bytes[from..from + line.length as usize];
            passed &= unescaped(payload).obu == obu.bytes;
            passed &= line.obu_type == u64::from(obu.kind.obu_type());
            if obu.dropped > 0 {
                labels.push("a payload with bytes inserted");
            }
        }
    }
    passed &= obus.next().is_none();
    suite.case(&labels, passed, || format!("{read:?}"));
}

fn run(suite: &mut Suite) {
    let mut caller = Caller::default();
    let mut random = Random::new(601);
    one(suite, &mut caller, 0, &sample(), None, &["the sample"]);
    for round in 0..3000 {
        let (units, longest) = match round % 10 {
            0 => (8, 600),
            1 => (20, 100),
            _ => (3, 40),
        };
        let made = make(&mut random, units, longest);
        let bytes = segment(&made.packets);
        let mut labels = Vec::new();
        if made.listing.streams.len() == 12 {
            labels.push("12 streams");
        }
        labels.push(match made.accepted.units.len() {
            0 => "no unit",
            1 => "one unit",
            _ => "several units",
        });
        one(suite, &mut caller, 0, &bytes, Some(&made), &labels);
        // In the edition that it was not made for.
        let rooms = (wide(&bytes), 100_000);
        caller.write(suite, 1, &bytes, rooms, &["the other edition"]);
        if round % 2 == 0 {
            let taken = random.below(3);
            let draft = draft_of(&mut random, &made, taken);
            let bytes = segment(&draft.packets);
            let mut labels = vec!["draft"];
            let no_time = |unit: &Carried| unit.pts > (1 << 33) - 1;
            if draft.accepted.units.iter().any(no_time) {
                labels.push("draft, a unit without times");
            }
            one(suite, &mut caller, 1, &bytes, Some(&draft), &labels);
        }
    }
    refusals(suite, &mut caller);
    many(suite, &mut caller);
}

/// The check's refusals, each by each of its conditions.
fn refusals(suite: &mut Suite, caller: &mut Caller) {
    for fault in segment_faults::all() {
        let mut base = segment_faults::base();
        (fault.apply)(&mut base);
        let bytes = base.bytes();
        let rooms = base.rooms_for(&bytes);
        let labels = ["a refusal of every kind, the sheet has room"];
        caller.write(suite, 0, &bytes, (rooms, 10_000), &labels);
        let labels = ["a refusal of every kind, the sheet has none"];
        caller.write(suite, 0, &bytes, (rooms, 0), &labels);
    }
    let bytes = sample();
    for edition in [2, 3, 255, 256, 1 << 32, u64::MAX] {
        for bytes in [&bytes[..], &[]] {
            let labels = ["44: an unknown edition"];
            let rooms = (wide(bytes), 5000);
            caller.write(suite, edition, bytes, rooms, &labels);
        }
    }
}

/// 1,024 units, and units of 64 OBUs.
fn many(suite: &mut Suite, caller: &mut Caller) {
    let entries = [Entry::av1(AV1, &[]), Entry::new(0xFF, 0x1FFE, &[])];
    let mut unit = Vec::new();
    for _ in 0..63 {
        unit.extend([0, 0, 1, 0x78, 0x80]);
    }
    unit.extend([0, 0, 1, 0x30]);
    for (count, unit, label) in [
        (1024, &[0, 0, 1, 0x30][..], "1,024 units"),
        (1024, &unit[..], "64 OBUs a unit"),
        (2, &unit[..], "64 OBUs a unit"),
    ] {
        let mut packets = head_of(pmt_body(&entries));
        for index in 0..count {
            packets.extend(Pes::new(index, None, unit).packets(AV1));
        }
        one(suite, caller, 0, &segment(&packets), None, &[label]);
    }
}
