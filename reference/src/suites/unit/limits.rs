//! The limits of a unit, and one more: 64 OBUs, 1,048,576 bytes, 1,573,056 bytes as carried.

use crate::helpers::unit::{Caller, List, carry, carry_list, lengths};
use crate::kit::{Definition, Suite, labels};
use reference::payload;
use reference::unit::{MOST_BYTES, MOST_CARRIED, MOST_OBUS};

pub const SUITE: Definition = Definition {
    name: "unit-limits",
    labels: || {
        labels(&[
            "64 OBUs",
            "65 OBUs",
            "1,048,576 bytes",
            "1,048,577 bytes",
            "1,573,055 bytes as carried",
            "1,573,056 bytes as carried",
            "1,573,057 bytes as carried",
            "1: more than 64 OBUs",
            "2: over 1,048,576 bytes of OBUs",
            "2: over 1,573,056 bytes as carried",
            "7: ends before the frame",
            "9: no start code at the head",
            "payload over 1,572,864 bytes",
            "check: accepted",
            "read: accepted",
            "write: accepted",
            "8: one byte short",
            "8: bytes one short",
            "8: lengths one short",
            "walk: a payload",
            "walk: the end",
        ])
    },
    run,
};

fn size_labels(bytes: usize, carried: usize, obus: usize) -> Vec<&'static str> {
    let mut labels = Vec::new();
    match bytes {
        MOST_BYTES => labels.push("1,048,576 bytes"),
        n if n == MOST_BYTES + 1 => labels.push("1,048,577 bytes"),
        _ => {}
    }
    match carried {
        MOST_CARRIED => labels.push("1,573,056 bytes as carried"),
        n if n == MOST_CARRIED - 1 => labels.push("1,573,055 bytes as carried"),
        n if n == MOST_CARRIED + 1 => labels.push("1,573,057 bytes as carried"),
        _ => {}
    }
    match obus {
        MOST_OBUS => labels.push("64 OBUs"),
        n if n == MOST_OBUS + 1 => labels.push("65 OBUs"),
        _ => {}
    }
    labels
}

/// A list through all functions: written, and its payloads, with those closing bytes, read.
fn one(suite: &mut Suite, caller: &mut Caller, list: &List, closing: &[u8]) {
    let bytes = list.concat();
    let carried = carry_list(list);
    let more = size_labels(bytes.len(), carried.len(), list.len());
    for room in [carried.len(), carried.len() - 1, 0] {
        caller.write(suite, &bytes, &lengths(list), room, &more);
    }
    let mut payloads: Vec<Vec<u8>> = list.iter().map(|obu| payload::escaped(obu)).collect();
    for payload in &mut payloads {
        if payload.ends_with(&[0, 0]) {
            payload.extend_from_slice(closing);
        }
    }
    let carried = carry(&payloads);
    let more = size_labels(bytes.len(), carried.len(), list.len());
    caller.check(suite, &carried, &more);
    let (need, count) = (bytes.len(), list.len());
    for rooms in [
        (need, count),
        (need + 1, count + 1),
        (need - 1, count),
        (need, count - 1),
    ] {
        caller.read(suite, &carried, rooms, &more);
    }
    if carried.len() < 10_000 || list.len() < 3 {
        caller.walk(suite, &carried, &more);
    }
}

/// A list of `count` OBUs and `total` bytes; all but the last alike, then a frame of what is left.
fn equal_parts(count: usize, total: usize, header: u8, fill: u8, frame: u8) -> List {
    let part = (total / count) & !1;
    let mut list = Vec::new();
    for _ in 1..count {
        let mut obu = vec![fill; part];
        obu[0] = header;
        list.push(obu);
    }
    let mut last = vec![fill; total - part * (count - 1)];
    last[0] = frame;
    list.push(last);
    list
}

fn run(suite: &mut Suite) {
    let mut caller = Caller::default();

    counts(suite, &mut caller);
    sums(suite, &mut caller);
    carried_lengths(suite, &mut caller);
}

/// Short OBUs, up to 64 of them and more.
fn counts(suite: &mut Suite, caller: &mut Caller) {
    for count in [1, 2, 63, 64, 65, 66, 128, 257] {
        one(
            suite,
            caller,
            &equal_parts(count, 2 * count, 0x78, 0x55, 0x30),
            &[],
        );
        one(
            suite,
            caller,
            &equal_parts(count, 4 * count, 0x00, 0x00, 0x30),
            &[3],
        );
    }
}

/// The OBUs' sum at its limit and one more, in one OBU and in many, of zeros and of others.
fn sums(suite: &mut Suite, caller: &mut Caller) {
    for total in [MOST_BYTES - 1, MOST_BYTES, MOST_BYTES + 1] {
        one(suite, caller, &equal_parts(1, total, 0, 0x55, 0x30), &[]);
        one(suite, caller, &equal_parts(1, total, 0, 0, 0x30), &[3]);
        one(suite, caller, &equal_parts(64, total, 0, 0, 0x30), &[3]);
        one(suite, caller, &equal_parts(64, total, 0, 0, 0x00), &[3]);
    }
    one(suite, caller, &equal_parts(64, MOST_BYTES, 0, 0, 0x30), &[]);
    one(
        suite,
        caller,
        &equal_parts(64, MOST_BYTES, 0x78, 0x55, 0x30),
        &[],
    );
}

/// The carried length at its limit and one more, where nothing else or something else is wrong.
fn carried_lengths(suite: &mut Suite, caller: &mut Caller) {
    for total in [
        MOST_CARRIED - 1,
        MOST_CARRIED,
        MOST_CARRIED + 1,
        MOST_CARRIED + 2,
    ] {
        let mut tile_list = carry(&[vec![0x40], vec![0x30]]);
        tile_list.resize(total, 0x55);
        let mut one_frame = carry(&[vec![0x30]]);
        one_frame.resize(total, 0x55);
        let mut wrong_order = carry(&[vec![0x30], vec![0x30]]);
        wrong_order.resize(total, 0x55);
        for carried in [
            tile_list,
            one_frame,
            wrong_order,
            vec![0; total],
            vec![0x55; total],
        ] {
            let mut more = size_labels(0, total, 1);
            if total - 3 > payload::UNESCAPE_LIMIT && carried.starts_with(&[0, 0, 1]) {
                more.push("payload over 1,572,864 bytes");
            }
            caller.check(suite, &carried, &more);
            caller.read(suite, &carried, (total, 64), &more);
            caller.read(suite, &carried, (0, 0), &more);
            caller.walk(suite, &carried, &more);
        }
    }
}
