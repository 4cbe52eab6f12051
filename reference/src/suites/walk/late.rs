//! A receiver that joins in the middle of a unit: the writer's string cut at every offset, searched
//! for start codes and walked over from the first of them.

use crate::helpers::unit::{List, any_list, lengths};
use crate::kit::{Definition, Given, Random, Suite, hex, labels};
use reference::payload;
use reference::unit::{START_CODE, start_codes};

pub const SUITE: Definition = Definition {
    name: "walk-late",
    labels: || {
        labels(&[
            "written",
            "at offset 0",
            "at a later start code",
            "one byte into a start code",
            "two bytes into a start code",
            "inside a payload",
            "at the end",
            "in zeros before a start code",
            "every OBU is left",
            "one OBU is left",
            "several OBUs are left",
            "no OBU is left",
            "of 64 OBUs",
            "of one OBU",
        ])
    },
    run,
};

/// An OBU's place in the writer's string: its start code, and its payload.
struct Tuned {
    at: usize,
    payload: Vec<u8>,
}

/// The list as the library writes it, and where each OBU must stand in it.
fn write(suite: &mut Suite, list: &List) -> (Vec<u8>, Vec<Tuned>) {
    let mut at = 0;
    let mut obus = Vec::new();
    for obu in list {
        let payload = payload::escaped(obu);
        let size = START_CODE.len() + payload.len();
        obus.push(Tuned { at, payload });
        at += size;
    }
    let mut written = vec![0xEE; at];
    let answer = av1ts::unit::write_unit(&list.concat(), &lengths(list), &mut written);
    let passed = (answer.number, answer.count) == (0, at as u64);
    suite.case(&["written"], passed, || format!("{answer:?} {list:?}"));
    (written, obus)
}

/// How an offset stands to the string.
fn offset_label(written: &[u8], obus: &[Tuned], offset: usize) -> &'static str {
    if offset == written.len() {
        return "at the end";
    }
    let last = match obus.iter().rfind(|obu| obu.at <= offset) {
        Some(last) => last,
        _ => return "before the unit",
    };
    match offset - last.at {
        0 if offset == 0 => "at offset 0",
        0 => "at a later start code",
        1 => "one byte into a start code",
        2 => "two bytes into a start code",
        _ => {
            let next = obus.iter().find(|obu| obu.at > offset);
            let zeros = |next: &Tuned| written[offset..next.at].iter().all(|&byte| byte == 0);
            if next.map_or(false, zeros) {
                "in zeros before a start code"
            } else {
                "inside a payload"
            }
        }
    }
}

/// The payloads that the library's walk hands out from a place on, and whether it came to the end.
fn walked(unit: &[u8], mut at: usize) -> (Vec<&[u8]>, bool) {
    let mut payloads = Vec::new();
    loop {
        let step = av1ts::walk::walk_step(unit, at);
        if step.number != 0 || step.end != 0 || payloads.len() > unit.len() {
            return (payloads, step.number == 0 && step.end == 1);
        }
        let (start, length) = (step.start as usize, step.length as usize);
        match unit.get(start..).and_then(|rest| rest.get(..length)) {
            Some(payload) => payloads.push(payload),
            None => return (payloads, false),
        }
        at = step.next_at as usize;
    }
}

fn join(suite: &mut Suite, given: &mut Given<u8>, written: &[u8], obus: &[Tuned], offset: usize) {
    given.give(&written[offset..]);
    let rest = given.part();

    // "the bytes from that offset on hold 00 00 01 exactly at the start codes that begin at or
    // after it"
    let left: Vec<&Tuned> = obus.iter().filter(|obu| obu.at >= offset).collect();
    let places: Vec<usize> = left.iter().map(|obu| obu.at - offset).collect();
    let found = start_codes(rest);

    // "the walk from the first of these gives exactly the payloads of the OBUs that begin there, in
    // order": over all that was received, and over what begins with that start code.
    let payloads: Vec<&[u8]> = left.iter().map(|obu| &obu.payload[..]).collect();
    let first = places.first().copied();
    let joined = first.map_or(true, |first| {
        walked(rest, first) == (payloads.clone(), true)
            && walked(&rest[first..], 0) == (payloads, true)
    });

    let count = match left.len() {
        0 => "no OBU is left",
        n if n == obus.len() => "every OBU is left",
        1 => "one OBU is left",
        _ => "several OBUs are left",
    };
    let mut labels = vec![offset_label(written, obus, offset), count];
    match obus.len() {
        1 => labels.push("of one OBU"),
        64 => labels.push("of 64 OBUs"),
        _ => {}
    }
    let passed = found == places && joined && given.unchanged(&written[offset..]);
    suite.case(&labels, passed, || {
        format!(
            "joined at {offset}: start codes expected at {places:?}, found at {found:?}, walk {}; \
             written {}",
            if joined { "right" } else { "wrong" },
            hex(written)
        )
    });
}

fn run(suite: &mut Suite) {
    let mut given = Given::default();
    let mut random = Random::new(12);
    for round in 0..3000 {
        let (most, longest) = match round % 20 {
            0 => (64, 5),
            1 => (4, 300),
            _ => (5, 12),
        };
        let list = any_list(&mut random, most, longest);
        let (written, obus) = write(suite, &list);
        for offset in 0..=written.len() {
            join(suite, &mut given, &written, &obus, offset);
        }
    }

    // A long unit, at offsets around its start codes and here and there.
    let list = any_list(&mut random, 6, 200_000);
    let (written, obus) = write(suite, &list);
    let mut offsets: Vec<usize> = (0..20).map(|_| random.below(written.len())).collect();
    for obu in &obus {
        offsets.extend(obu.at.saturating_sub(4)..obu.at + 5);
    }
    for offset in offsets {
        join(
            suite,
            &mut given,
            &written,
            &obus,
            offset.min(written.len()),
        );
    }
}
