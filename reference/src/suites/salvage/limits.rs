//! The limits, and one more: 64 tsOBUs, an OBU of 1,048,576 bytes, 1,573,056 bytes as carried; and
//! which refusal comes first.

use crate::helpers::salvage::{Caller, tsobu};
use crate::helpers::unit::{List, carry, carry_list};
use crate::kit::{Definition, Suite, labels};
use reference::payload::escaped;
use reference::unit::{MOST_BYTES, MOST_CARRIED, MOST_OBUS};

pub const SUITE: Definition = Definition {
    name: "salvage-limits",
    labels: || {
        labels(&[
            "64 start codes",
            "65 start codes",
            "1: more than 64 tsOBUs",
            "1: before 8",
            "2: over 1,573,056 bytes as carried",
            "2: before 1",
            "2: before 8",
            "1,573,056 bytes as carried",
            "1,573,057 bytes as carried",
            "dropped: 2: an OBU over 1,048,576 bytes",
            "not accepted: 2: over 1,048,576 bytes of OBUs",
            "accepted",
            "an OBU of 1,048,576 bytes",
            "an OBU of 1,048,577 bytes",
            "a payload over 1,572,864 bytes",
            "all bytes are leading",
            "laws",
            "laws: an accepted unit drops nothing",
        ])
    },
    run,
};

/// With rooms for all, and with none.
fn one(suite: &mut Suite, caller: &mut Caller, input: &[u8], more: &[&str]) {
    let rooms = (input.len(), input.len().min(200));
    caller.salvage(suite, input, rooms, more);
    let codes = reference::unit::start_codes(input).len();
    let mut first = Vec::new();
    if input.len() > MOST_CARRIED {
        first.push("2: before 8");
        if codes > MOST_OBUS {
            first.push("2: before 1");
        }
    } else if codes > MOST_OBUS {
        first.push("1: before 8");
    }
    caller.salvage(suite, input, (0, 0), &first);
    caller.laws(suite, input);
}

/// An OBU of a length, filled with a byte.
fn filled(header: u8, fill: u8, len: usize) -> Vec<u8> {
    let mut obu = vec![fill; len];
    obu[0] = header;
    obu
}

/// Numbers of start codes around 64: kept ones, dropped ones, and both in turn.
fn counts(suite: &mut Suite, caller: &mut Caller) {
    for count in [1, 2, 63, 64, 65, 66, 128, 300] {
        let more: &[&str] = match count {
            64 => &["64 start codes"],
            65 => &["65 start codes"],
            _ => &[],
        };
        let mut last_is_frame: List = vec![vec![0x78, 0x00, 0x00, 0x03]; count - 1];
        last_is_frame.push(vec![0x30]);
        let mut in_turn: List = vec![vec![0x30]; count];
        for payload in in_turn.iter_mut().step_by(2) {
            *payload = vec![0x40];
        }
        for payloads in [
            vec![vec![]; count],
            vec![vec![0x40]; count],
            vec![vec![0x30]; count],
            last_is_frame,
            in_turn,
        ] {
            let unit = carry(&payloads);
            one(suite, caller, &unit, more);
            one(suite, caller, &[&[0, 0x55, 0], &unit[..]].concat(), more);
            // A start code too many at the very end.
            one(suite, caller, &[&unit[..], &[0, 0, 1]].concat(), &[]);
        }
    }
}

/// OBUs around 1,048,576 bytes, of zeros and of others, alone and beside others.
fn lengths(suite: &mut Suite, caller: &mut Caller) {
    for len in [MOST_BYTES - 1, MOST_BYTES, MOST_BYTES + 1, MOST_BYTES + 2] {
        let more: &[&str] = match len - MOST_BYTES.min(len) {
            0 if len == MOST_BYTES => &["an OBU of 1,048,576 bytes"],
            1 => &["an OBU of 1,048,577 bytes"],
            _ => &[],
        };
        for fill in [0x00, 0x55] {
            let frame = filled(0x30, fill, len);
            let padding = filled(0x78, fill, len);
            for list in [
                vec![frame.clone()],
                vec![vec![0x12, 0x00], frame],
                vec![padding.clone(), vec![0x30]],
                vec![vec![0x78], padding, vec![0x40], vec![0x30]],
            ] {
                let unit = carry_list(&list);
                one(suite, caller, &unit, more);
                let mut closed = tsobu(&escaped(&list[0]));
                if closed.ends_with(&[0, 0]) {
                    closed.push(3);
                    one(suite, caller, &closed, more);
                }
            }
        }
    }
    // Each of them right, and too much together.
    let half = filled(0x78, 0x55, MOST_BYTES / 2);
    let list = vec![half.clone(), half.clone(), vec![0x30]];
    one(suite, caller, &carry_list(&list), &[]);
    one(
        suite,
        caller,
        &carry_list(&vec![half.clone(), half, vec![0x40]]),
        &[],
    );
}

/// Carried lengths around 1,573,056, whatever the bytes are.
fn carried(suite: &mut Suite, caller: &mut Caller) {
    for total in [
        MOST_CARRIED - 1,
        MOST_CARRIED,
        MOST_CARRIED + 1,
        MOST_CARRIED + 2,
    ] {
        let more: &[&str] = match total {
            MOST_CARRIED => &["1,573,056 bytes as carried"],
            n if n == MOST_CARRIED + 1 => &["1,573,057 bytes as carried"],
            _ => &[],
        };
        for head in [
            carry(&[vec![0x30]]),
            carry(&[vec![0x30], vec![0x40]]),
            carry(&[vec![0x30], vec![0xB0]]),
            carry(&vec![vec![0x78]; 70]),
        ] {
            let mut input = head;
            input.resize(total, 0x55);
            let mut more = more.to_vec();
            if total - 3 > 1_572_864 {
                more.push("a payload over 1,572,864 bytes");
            }
            one(suite, caller, &input, &more);
        }
        for fill in [0x00, 0x55] {
            let more = [more, &["all bytes are leading"]].concat();
            one(suite, caller, &vec![fill; total], &more);
        }
        // Leading bytes as many as there can be.
        let mut input = vec![0; total - 4];
        input.extend([0, 0, 1, 0x30]);
        input.truncate(total);
        one(suite, caller, &input, more);
    }
}

fn run(suite: &mut Suite) {
    let mut caller = Caller::default();
    counts(suite, &mut caller);
    lengths(suite, &mut caller);
    carried(suite, &mut caller);
}
