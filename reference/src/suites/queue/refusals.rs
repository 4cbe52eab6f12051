//! Refusals of add: by each condition, in pairs, and rooms of the store around the boundary.

use crate::helpers::queue::{Session, any_unit, plain, queued};
use crate::helpers::unit::reading_conditions;
use crate::kit::{Definition, Random, Suite, labels};
use reference::queue::{
    DTS_TOO_LONG, FULL, MOST_TIME, NOT_ACCEPTED, PTS_TOO_LONG, Queued, STORE_TOO_SHORT,
};

pub const SUITE: Definition = Definition {
    name: "queue-refusals",
    labels: || {
        let mut list = labels(&[
            "added",
            FULL,
            NOT_ACCEPTED,
            PTS_TOO_LONG,
            DTS_TOO_LONG,
            STORE_TOO_SHORT,
            "50 before 51",
            "50 before 8",
            "51 before 8",
            "50 before 51 and 8",
            "both times above 33 bits",
            "a ninth unit",
            "no room",
            "exactly enough room",
            "one byte short",
            "one byte more",
            "the highest time",
        ]);
        for condition in reading_conditions() {
            list.push(format!("51: {condition}"));
        }
        list
    },
    run,
};

/// Units that reading refuses, by every condition.
fn wrong_units() -> Vec<Vec<u8>> {
    let code = [0, 0, 1];
    let unit = |payloads: &[&[u8]]| -> Vec<u8> {
        let mut unit = Vec::new();
        for payload in payloads {
            unit.extend(code);
            unit.extend_from_slice(payload);
        }
        unit
    };
    let frame: &[u8] = &[0x30, 0xAA];
    let mut long_leb = vec![0x32];
    long_leb.extend([0x80; 8]);
    long_leb.push(0);
    let mut many = vec![&[0x78, 0x80][..]; 64];
    many.push(frame);
    let mut over_carried = plain(1_573_057);
    over_carried[0] = 7;
    let half = [&[0x78][..], &vec![0xAA; 524_288]].concat();
    let sum = unit(&[&half, &[&[0x30][..], &half[1..]].concat()]);
    vec![
        over_carried,
        vec![],
        vec![0, 0],
        vec![0, 0, 2, 0x30],
        vec![0x30, 0, 0, 1, 0x30],
        unit(&many),
        unit(&[&[], frame]),
        unit(&[frame, &[]]),
        unit(&[&[0x30, 0, 0, 0, 4]]),
        unit(&[&[0x30, 0, 0, 2]]),
        unit(&[&[0x30, 0, 0, 3, 4]]),
        unit(&[&[0xB0]]),
        unit(&[&[0x34]]),
        unit(&[&[0x32, 0x80]]),
        unit(&[&long_leb]),
        unit(&[&[0x32, 0xFF, 0xFF, 0xFF, 0xFF, 0x7F]]),
        unit(&[&[0x32, 0x02, 0xAA]]),
        unit(&[&[0x32, 0x01, 0xAA, 0xBB]]),
        unit(&[&[0x10, 0x00], frame]),
        unit(&[&[0x40], frame]),
        unit(&[&[0x08], frame]),
        unit(&[&[0x18]]),
        unit(&[&[0x08, 0x08], frame]),
        sum,
        unit(&[&[0x78], &[0x10], frame]),
        unit(&[&[0x20], frame]),
        unit(&[frame, frame]),
        unit(&[&[0x18, 0x80], &[0x20]]),
        unit(&[&[0x18, 0x00], frame]),
        unit(&[&[0x10]]),
        unit(&[&[0x18, 0x00], &[0x20], &[0x78]]),
    ]
}

/// A queue of so many units in a store of a room, all of a few bytes.
fn session(suite: &mut Suite, units: usize, room: usize) -> Session {
    let mut session = Session::new(room);
    for index in 0..units {
        session.add(suite, &queued(plain(5 + index)), &[]);
    }
    session
}

/// The bytes of so many units.
fn bytes_of(units: usize) -> usize {
    (0..units).map(|index| 5 + index).sum()
}

fn run(suite: &mut Suite) {
    let mut random = Random::new(502);
    conditions(suite);
    rooms(suite);
    // Any units, damaged or not, into stores that may be short.
    for _ in 0..4000 {
        let mut session = Session::new(random.below(200));
        for _ in 0..10 {
            let mut unit = any_unit(&mut random, 12);
            if random.one_in(2) {
                let at = random.below(unit.bytes.len());
                unit.bytes[at] = random.pick(&[0, 1, 2, 3, 0x30, 0x12, 0xFF]);
            }
            if random.one_in(16) {
                unit.pts += MOST_TIME;
            }
            session.add(suite, &unit, &[]);
        }
    }
}

/// Every condition, into queues of every number of units, with a store that has room or none.
fn conditions(suite: &mut Suite) {
    for units in [0, 1, 7, 8] {
        let roomy = bytes_of(units) + 1_600_000;
        for (room, short) in [(roomy, false), (bytes_of(units), true)] {
            let mut session = session(suite, units, room);
            for wrong in wrong_units() {
                let labels: &[&str] = match (units, short) {
                    (8, false) => &["50 before 51"],
                    (8, true) => &["50 before 51 and 8"],
                    (_, false) => &[],
                    (_, true) => &["51 before 8"],
                };
                session.add(suite, &queued(wrong), labels);
            }
            for time in [MOST_TIME + 1, 1 << 34, u64::MAX] {
                let right = queued(plain(9));
                let late = Queued {
                    pts: time,
                    ..right.clone()
                };
                session.add(suite, &late, &[]);
                let both = Queued {
                    dts: time,
                    ..late.clone()
                };
                session.add(suite, &both, &["both times above 33 bits"]);
                let dts = Queued { dts: time, ..right };
                session.add(suite, &dts, &[]);
            }
            let labels: &[&str] = match (units, short) {
                (8, false) => &["a ninth unit"],
                (8, true) => &["50 before 8"],
                _ => &["the highest time"],
            };
            let right = Queued {
                pts: MOST_TIME,
                dts: MOST_TIME,
                ..queued(plain(9))
            };
            session.add(suite, &right, labels);
        }
    }
}

/// Rooms around the boundary, for units of several lengths.
fn rooms(suite: &mut Suite) {
    for units in 0..8 {
        for length in [4, 5, 11, 200] {
            let need = bytes_of(units) + length;
            for room in [bytes_of(units), need - 1, need, need + 1, need + 50] {
                let label = match room {
                    _ if room == need => "exactly enough room",
                    _ if room + 1 == need => "one byte short",
                    _ if room == need + 1 => "one byte more",
                    _ if room == bytes_of(units) => "no room",
                    _ => "more room",
                };
                let mut session = session(suite, units, room);
                session.add(suite, &queued(plain(length)), &[label]);
                session.drop_oldest(suite, &[]);
                session.add(suite, &queued(plain(length)), &[]);
            }
        }
    }
}
