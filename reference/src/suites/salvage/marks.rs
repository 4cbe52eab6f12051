//! Every mark by each of its conditions, in every place of a unit; two conditions in one tsOBU; and
//! the answers that the papers say.

use crate::helpers::salvage::{Caller, DROPPED, NOT_ACCEPTED, RESULTS, tsobu};
use crate::helpers::under_test;
use crate::helpers::unit::broken::{bad_obus, illegal_payloads};
use crate::helpers::unit::faults::{self, all_pairs};
use crate::helpers::unit::{List, carry, carry_list};
use crate::kit::{Definition, Suite, hex, labels};
use av1ts::salvage::Salvaged;
use reference::payload;
use reference::unit::MOST_BYTES;

pub const SUITE: Definition = Definition {
    name: "salvage-marks",
    labels: || {
        let mut list = labels(DROPPED);
        list.extend(labels(NOT_ACCEPTED));
        list.extend(labels(RESULTS));
        list.extend(labels(&[
            "worked",
            "dropped: 2: an OBU over 1,048,576 bytes",
            "laws",
            "laws: an accepted unit drops nothing",
        ]));
        let mut pairs = all_pairs("salvage", &[], &["3", "10", "4", "5", "6", "42", "2"], &[]);
        pairs.retain(|pair| pair.ends_with("in one OBU"));
        list.extend(pairs);
        list
    },
    run,
};

/// The rules that the tsOBU at an index breaks, in the order of tries.
fn broken(list: &List, index: usize) -> Vec<&'static str> {
    let mut rules = Vec::new();
    for fault in faults::reading(&carry(list), usize::MAX, usize::MAX) {
        if fault.index == Some(index) {
            rules.push(fault.rule);
        }
    }
    if payload::unescaped(&list[index]).obu.len() > MOST_BYTES {
        rules.push("2");
    }
    rules
}

/// A list whose tsOBU at an index breaks rules: the first one is its mark.
fn one(suite: &mut Suite, caller: &mut Caller, list: &List, index: usize) {
    let mut pairs = Vec::new();
    if let [first, others @ ..] = &broken(list, index)[..] {
        for other in others {
            pairs.push(format!("salvage: {first} before {other} in one OBU"));
        }
    }
    let more: Vec<&str> = pairs.iter().map(|label| label.as_str()).collect();
    let carried = carry(list);
    caller.salvage_wide(suite, &carried, &more);
    caller.salvage_wide(suite, &[&[0x30, 0], &carried[..]].concat(), &more);
    caller.laws(suite, &carried);
}

/// An input; its result; its marks; its tsOBUs, those kept, leading bytes, and 1 where it is accepted.
type Case = (Vec<u8>, Vec<u8>, Vec<u8>, [u64; 4]);

/// Units with the answer, the result and the marks that the papers say.
fn cases() -> Vec<Case> {
    let frame = tsobu(&[0x30, 0xAA]);
    let delimiter = tsobu(&[0x12, 0x00]);
    vec![
        (vec![], vec![], vec![], [0, 0, 0, 0]),
        (vec![0, 0], vec![], vec![], [0, 0, 2, 0]),
        (vec![0x55; 7], vec![], vec![], [0, 0, 7, 0]),
        (tsobu(&[]), vec![], vec![3], [1, 0, 0, 0]),
        (frame.clone(), frame.clone(), vec![0], [1, 1, 0, 1]),
        (
            [&[0, 0], &frame[..]].concat(),
            frame.clone(),
            vec![0],
            [1, 1, 2, 1],
        ),
        (
            tsobu(&[0x30, 0, 0, 3]),
            tsobu(&[0x30, 0, 0]),
            vec![1],
            [1, 1, 0, 1],
        ),
        (
            tsobu(&[0x30, 0, 0, 3, 3]),
            tsobu(&[0x30, 0, 0, 3, 3]),
            vec![0],
            [1, 1, 0, 1],
        ),
        (tsobu(&[0x30, 0, 0, 3, 4]), vec![], vec![10], [1, 0, 0, 0]),
        (
            tsobu(&[0x30, 0, 0, 3, 3, 0, 0, 3]),
            tsobu(&[0x30, 0, 0, 3, 3, 0, 0]),
            vec![1],
            [1, 1, 0, 1],
        ),
        (delimiter.clone(), delimiter.clone(), vec![0], [1, 1, 0, 0]),
        (
            [&delimiter[..], &tsobu(&[0x40]), &frame].concat(),
            [&delimiter[..], &frame].concat(),
            vec![0, 6, 0],
            [3, 2, 0, 1],
        ),
        (
            [
                &[0, 0, 2][..],
                &tsobu(&[0x78, 0, 0, 3]),
                &tsobu(&[0x08, 0x08]),
                &frame,
            ]
            .concat(),
            [&tsobu(&[0x78, 0, 0])[..], &frame].concat(),
            vec![1, 42, 0],
            [3, 2, 3, 1],
        ),
        (
            [&frame[..], &delimiter].concat(),
            [&frame[..], &delimiter].concat(),
            vec![0, 0],
            [2, 2, 0, 0],
        ),
    ]
}

fn worked(suite: &mut Suite) {
    for (input, result, marks, [tsobus, kept, leading, accepted]) in cases() {
        let expected = Salvaged {
            bytes: result.len() as u64,
            tsobus,
            kept,
            leading,
            accepted,
            ..Salvaged::default()
        };
        let mut out = vec![0xEE; input.len() + 2];
        let mut got_marks = [0xEE; 5];
        let got = under_test::salvage(&input, &mut out, &mut got_marks);
        let passed = got == expected
            && out.starts_with(&result)
            && out[result.len()..].iter().all(|&byte| byte == 0xEE)
            && got_marks.starts_with(&marks)
            && got_marks[marks.len()..].iter().all(|&mark| mark == 0xEE);
        suite.case(&["worked"], passed, || {
            format!(
                "expected {expected:?}, got {got:?} and {got_marks:?}; {}",
                hex(&input)
            )
        });
    }
}

/// A legal payload of an OBU with these first bytes and the given length; the rest is not looked at.
fn long(head: &[u8], len: usize) -> Vec<u8> {
    let mut bytes = vec![0x77; len];
    bytes[..head.len()].copy_from_slice(head);
    bytes
}

fn delimiter() -> Vec<u8> {
    vec![0x12, 0x00]
}

fn frame() -> Vec<u8> {
    vec![0x32, 0x01, 0x66]
}

/// A padding with a closing 03.
fn closed() -> Vec<u8> {
    vec![0x78, 0x00, 0x00, 0x03]
}

fn run(suite: &mut Suite) {
    worked(suite);
    let mut caller = Caller::default();
    in_every_place(suite, &mut caller);
    too_long(suite, &mut caller);
    not_accepted(suite, &mut caller);
}

/// What breaks rules of one OBU, in every place of a unit, and two of them one after the other.
fn in_every_place(suite: &mut Suite, caller: &mut Caller) {
    let mut bad = bad_obus();
    bad.extend(illegal_payloads());
    for payload in &bad {
        for (list, index) in [
            (vec![payload.clone()], 0),
            (vec![payload.clone(), frame()], 0),
            (vec![delimiter(), payload.clone(), frame()], 1),
            (vec![closed(), payload.clone(), closed(), frame()], 1),
            (vec![delimiter(), frame(), payload.clone()], 2),
            (
                vec![
                    vec![0x18, 0x00],
                    payload.clone(),
                    vec![0x20, 0x00, 0x00, 0x03],
                ],
                1,
            ),
        ] {
            one(suite, caller, &list, index);
        }
        for second in &bad {
            let list = vec![payload.clone(), closed(), second.clone(), frame()];
            caller.salvage_wide(suite, &carry(&list), &[]);
        }
    }
}

/// An OBU that is too long, and breaks each of the others too.
fn too_long(suite: &mut Suite, caller: &mut Caller) {
    let over = MOST_BYTES + 1;
    let illegal = [&long(&[0x30], over)[..], &[0, 0, 2]].concat();
    for payload in [
        long(&[0x30], MOST_BYTES),
        long(&[0x30], over),
        illegal,
        long(&[0xB0], over),
        long(&[0x32, 0x05], over),
        long(&[0x10], over),
        long(&[0x40], over),
        long(&[0x08, 0x08], over),
    ] {
        one(suite, caller, &vec![payload.clone()], 0);
        one(suite, caller, &vec![delimiter(), payload, frame()], 1);
    }
}

/// Results that reading does not accept, by each condition of the order.
fn not_accepted(suite: &mut Suite, caller: &mut Caller) {
    for kinds in [
        &[0x78, 0x10, 0x30][..],
        &[0x20],
        &[0x30, 0x78],
        &[0x10, 0x78],
        &[0x30, 0x30],
    ] {
        let list: List = kinds.iter().map(|&header| vec![header]).collect();
        caller.salvage_wide(suite, &carry_list(&list), &[]);
    }
    for list in [
        vec![vec![0x18, 0x80], vec![0x20]],
        vec![vec![0x18, 0x00], vec![0x30]],
        vec![vec![0x18, 0x00], vec![0x20], vec![0x78]],
        vec![vec![0x18, 0x00], vec![0x40], vec![0x20]],
    ] {
        caller.salvage_wide(suite, &carry_list(&list), &[]);
        caller.laws(suite, &carry_list(&list));
    }
}
