//! The cases of access units that the papers name, each with the answer that they say.

use crate::helpers::unit::{Caller, List, carry, carry_list, lengths};
use crate::kit::{Definition, Suite, hex, labels};
use av1ts::Answer;

pub const SUITE: Definition = Definition {
    name: "unit-worked",
    labels: || {
        labels(&[
            "worked: reading",
            "worked: reading refused",
            "worked: writing",
            "worked: writing refused",
            "worked: walk",
        ])
    },
    run,
};

/// Two OBUs with these headers, together one byte over the limit.
fn too_long(first: u8, second: u8) -> Vec<u8> {
    let long = |header: u8, len: usize| {
        let mut bytes = vec![0x55; len];
        bytes[0] = header;
        bytes
    };
    carry(&[long(first, 600_000), long(second, 448_577)])
}

/// A list of so many OBUs: padding, then a frame.
fn padded(count: usize) -> List {
    let mut list = vec![vec![0x78]; count - 1];
    list.push(vec![0x30]);
    list
}

/// The lister's unit: zeros before a start code belong to the payload.
const UNIT: [u8; 12] = [0, 0, 1, 0x12, 0, 0, 0, 1, 0x30, 0xAA, 0, 0];

fn run(suite: &mut Suite) {
    let mut caller = Caller::default();

    listed_unit(suite);
    reading_refuses(suite, &mut caller);
    reading_accepts(suite, &mut caller);
    writing(suite, &mut caller);
    walks(suite, &mut caller);
}

/// The lister's unit, read and written.
fn listed_unit(suite: &mut Suite) {
    let mut out = [0xEE; 8];
    let mut lens = [77; 3];
    let got = av1ts::unit::read_unit(&UNIT, &mut out, &mut lens);
    let passed =
        got == Answer {
            number: 0,
            place: 0,
            count: 2,
            bytes: 6,
            dropped: 0,
        } && out == [0x12, 0, 0x30, 0xAA, 0, 0, 0xEE, 0xEE]
            && lens == [2, 4, 77];
    suite.case(&["worked: reading"], passed, || format!("{got:?}"));
    let mut out = [0xEE; 14];
    let got = av1ts::unit::write_unit(&[0x12, 0, 0x30, 0xAA, 0, 0], &[2, 4], &mut out);
    let passed =
        got == Answer {
            count: 12,
            ..Answer::default()
        } && out[..12] == UNIT
            && out[12..] == [0xEE, 0xEE];
    suite.case(&["worked: writing"], passed, || format!("{got:?}"));
}

/// Units that reading refuses: number and place.
fn reading_refuses(suite: &mut Suite, caller: &mut Caller) {
    let units: Vec<(Vec<u8>, u64, u64)> = vec![
        (vec![0, 0, 1, 0, 0, 1, 0x30], 3, 0),
        (vec![0, 0, 1, 0x12, 0], 7, 1),
        (vec![0, 0, 1, 0x30, 0xAA, 0, 0, 1, 0x78, 0x80], 7, 1),
        (vec![0, 0, 1, 0x40], 6, 0),
        (vec![0, 0, 1, 0x32, 2, 0xAA], 5, 0),
        (vec![0, 0, 1, 0x08, 0, 0, 1, 0x30], 42, 0),
        (vec![0, 0, 1, 0x08, 0x08, 0, 0, 1, 0x30], 42, 0),
        (vec![0, 0, 1, 0x30, 0, 0, 1, 0x18], 42, 1),
        (vec![0, 0, 1, 0x18, 0x80, 0, 0, 1, 0x20], 7, 1),
        (vec![0, 0, 1, 0x18, 0x7F], 7, 1),
        (vec![], 9, 0),
        (vec![0, 0], 9, 0),
        (vec![0, 0, 0, 1, 0x30], 9, 0),
        (vec![0, 0, 1], 3, 0),
        (vec![0, 0, 1, 0x30, 0, 0, 1], 3, 1),
        (vec![0, 0, 1, 0x30, 0, 0, 2], 10, 0),
        (vec![0, 0, 1, 0x30, 0, 0, 3, 4], 10, 0),
        (vec![0, 0, 1, 0x12, 0, 0, 0, 0, 1, 0x30], 5, 0),
        (vec![0, 0, 1, 0x12, 0, 0, 0, 0, 0, 1, 0x30], 10, 0),
        (carry(&padded(65)), 1, 0),
        (too_long(0x40, 0x30), 6, 0),
        (too_long(0x78, 0x30), 2, 0),
        (too_long(0x30, 0x30), 2, 0),
    ];
    for (unit, number, place) in units {
        let expected = Answer {
            number,
            place,
            ..Answer::default()
        };
        let check = av1ts::unit::check_unit(&unit);
        let mut out = vec![0xEE; unit.len()];
        let mut lens = [77; 70];
        let read = av1ts::unit::read_unit(&unit, &mut out, &mut lens);
        let kept = out.iter().all(|&byte| byte == 0xEE) && lens == [77; 70];
        let passed = check == expected && read == expected && kept;
        suite.case(&["worked: reading refused"], passed, || {
            format!(
                "expected {expected:?}, got {check:?} and {read:?}; {}",
                hex(&unit)
            )
        });
        caller.check(suite, &unit, &[]);
        caller.read_wide(suite, &unit, &[]);
    }
}

/// Units that reading accepts: OBUs, bytes, dropped.
fn reading_accepts(suite: &mut Suite, caller: &mut Caller) {
    let units: Vec<(Vec<u8>, u64, u64, u64)> = vec![
        (vec![0, 0, 1, 0x32, 0x82, 0, 0xAA, 0xBB], 1, 5, 0),
        (vec![0, 0, 1, 0x30, 0, 0, 3], 1, 3, 1),
        (vec![0, 0, 1, 0x30, 0, 0], 1, 3, 0),
        (vec![0, 0, 1, 0x10, 0, 0, 1, 0x1A, 1, 0x80], 2, 4, 0),
        (vec![0, 0, 1, 0x18, 0x7F, 0, 0, 1, 0x20], 2, 3, 0),
        (
            vec![0, 0, 1, 0x10, 0, 0, 1, 0x30, 0, 0, 3, 0, 0, 3, 0],
            2,
            7,
            2,
        ),
        (carry(&padded(64)), 64, 64, 0),
    ];
    for (unit, count, bytes, dropped) in units {
        let expected = Answer {
            number: 0,
            place: 0,
            count,
            bytes,
            dropped,
        };
        let check = av1ts::unit::check_unit(&unit);
        let passed = check == expected;
        suite.case(&["worked: reading"], passed, || {
            format!("expected {expected:?}, got {check:?}; {}", hex(&unit))
        });
        caller.check(suite, &unit, &[]);
        caller.read_wide(suite, &unit, &[]);
    }
}

/// Lists that writing refuses, and lists that it takes.
fn writing(suite: &mut Suite, caller: &mut Caller) {
    let lists: Vec<(List, u64, u64)> = vec![
        (vec![], 1, 0),
        (padded(65), 1, 0),
        (vec![vec![0x12, 0]], 7, 1),
        (vec![vec![0x30, 0xAA], vec![0x78, 0x80]], 7, 1),
        (vec![vec![0x40]], 6, 0),
        (vec![vec![0x32, 2, 0xAA]], 5, 0),
        (vec![vec![], vec![0x30]], 3, 0),
        (vec![vec![0x18, 0], vec![0x20], vec![0x78]], 7, 3),
        (vec![vec![0x18, 0x80], vec![0x20]], 7, 1),
        (vec![vec![0x18], vec![0x20]], 42, 0),
        (vec![vec![0x08, 0x08], vec![0x30]], 42, 0),
        (vec![vec![0x30], vec![0x08]], 42, 1),
        (vec![vec![0x32, 0x82, 0, 0xAA, 0xBB]], 0, 0),
        (
            vec![vec![0x18, 0], vec![0x20], vec![0x78], vec![0x20]],
            0,
            0,
        ),
        (vec![vec![0x10], vec![0x18, 0x80]], 0, 0),
        (padded(64), 0, 0),
    ];
    for (list, number, place) in lists {
        let carried = carry_list(&list);
        let count = if number == 0 { carried.len() as u64 } else { 0 };
        let expected = Answer {
            number,
            place,
            count,
            ..Answer::default()
        };
        let mut out = vec![0xEE; 300];
        let got = av1ts::unit::write_unit(&list.concat(), &lengths(&list), &mut out);
        let mut after = vec![0xEE; 300];
        if number == 0 {
            after[..carried.len()].copy_from_slice(&carried);
        }
        let label = if number == 0 {
            "worked: writing"
        } else {
            "worked: writing refused"
        };
        let passed = got == expected && out == after;
        suite.case(&[label], passed, || {
            format!(
                "expected {expected:?}, got {got:?}; {}",
                hex(&list.concat())
            )
        });
        caller.write(suite, &list.concat(), &lengths(&list), 300, &[]);
    }
}

/// A walk over 00 00 01 alone starts, and its step 0 refuses with 3.
fn walks(suite: &mut Suite, caller: &mut Caller) {
    let start = av1ts::walk::walk_start(&[0, 0, 1]);
    let step = av1ts::walk::walk_step(&[0, 0, 1], 0);
    let passed = start == Default::default()
        && step
            == av1ts::walk::Step {
                number: 3,
                ..Default::default()
            };
    suite.case(&["worked: walk"], passed, || format!("{start:?} {step:?}"));
    caller.walk(suite, &[0, 0, 1], &[]);
    caller.walk(suite, &UNIT, &[]);
}
