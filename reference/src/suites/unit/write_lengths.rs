//! Lengths in writing that do not add up to the bytes, also those whose machine sum does.

use crate::helpers::unit::{Caller, any_list, lengths};
use crate::kit::{Definition, Random, Suite, labels};
use reference::unit;

pub const SUITE: Definition = Definition {
    name: "write-lengths",
    labels: || {
        labels(&[
            "lengths too short",
            "lengths too long",
            "lengths too long by a power of two",
            "machine sum wraps to the bytes",
            "machine sum wraps to something else",
            "1: no OBU",
            "1: more than 64 OBUs",
            "2: lengths do not add up",
            "2: over 1,048,576 bytes of OBUs",
            "3: no bytes",
            "write: accepted",
        ])
    },
    run,
};

fn one(suite: &mut Suite, caller: &mut Caller, bytes: &[u8], lengths: &[usize]) {
    let sum: u128 = lengths.iter().map(|&length| length as u128).sum();
    let len = bytes.len() as u128;
    let machine_sum = lengths
        .iter()
        .fold(0usize, |sum, &length| sum.wrapping_add(length));
    let mut more = Vec::new();
    if sum > usize::MAX as u128 {
        more.push(if machine_sum == bytes.len() {
            "machine sum wraps to the bytes"
        } else {
            "machine sum wraps to something else"
        });
    } else if sum < len {
        more.push("lengths too short");
    } else if sum > len {
        more.push("lengths too long");
        if (sum - len).is_power_of_two() && sum - len >= 1 << 31 {
            more.push("lengths too long by a power of two");
        }
    }
    let room = bytes.len() * 3 / 2 + 3 * lengths.len().min(unit::MOST_OBUS);
    caller.write(suite, bytes, lengths, room, &more);
    caller.write(suite, bytes, lengths, 0, &more);
}

fn run(suite: &mut Suite) {
    let mut caller = Caller::default();
    let mut random = Random::new(6);
    for round in 0..1500 {
        let most = if round % 8 == 0 { 64 } else { 6 };
        let list = any_list(&mut random, most, 8);
        let bytes = list.concat();
        let right = lengths(&list);
        let place = random.below(right.len());
        one(suite, &mut caller, &bytes, &right);

        one_changed(suite, &mut caller, &mut random, &bytes, &right, place);
        past_the_range(suite, &mut caller, &mut random, &bytes, &right, place);
        // A length left out, one of 0 put in, the bytes cut or longer.
        let mut lengths = right.clone();
        lengths.remove(place);
        one(suite, &mut caller, &bytes, &lengths);
        let mut lengths = right.clone();
        lengths.insert(place, 0);
        one(suite, &mut caller, &bytes, &lengths);
        one(suite, &mut caller, &bytes[..bytes.len() - 1], &right);
        one(suite, &mut caller, &[&bytes[..], &[0x30]].concat(), &right);
    }

    many_lengths(suite, &mut caller);
    // One byte over the limit, with lengths that are right and ones that are not.
    let bytes = vec![0x30; unit::MOST_BYTES + 1];
    one(suite, &mut caller, &bytes, &[bytes.len()]);
    one(suite, &mut caller, &bytes, &[unit::MOST_BYTES]);
    one(suite, &mut caller, &bytes[1..], &[bytes.len()]);
    one(suite, &mut caller, &bytes[1..], &[unit::MOST_BYTES]);
}

/// One length changed.
fn one_changed(
    suite: &mut Suite,
    caller: &mut Caller,
    random: &mut Random,
    bytes: &[u8],
    right: &[usize],
    place: usize,
) {
    for other in [
        0,
        right[place] - 1,
        right[place] + 1,
        right[place] + (1 << 31),
        right[place] + (1 << 32),
        right[place] + (1 << 63),
        usize::MAX,
        bytes.len(),
        random.next() as usize,
    ] {
        let mut lengths = right.to_vec();
        lengths[place] = other;
        one(suite, caller, bytes, &lengths);
    }
}

/// Two lengths or more that pass the machine's range; the sum is right modulo 2 to the 64th.
fn past_the_range(
    suite: &mut Suite,
    caller: &mut Caller,
    random: &mut Random,
    bytes: &[u8],
    right: &[usize],
    place: usize,
) {
    let mut lengths = right.to_vec();
    lengths.push(usize::MAX);
    one(suite, caller, bytes, &lengths);
    lengths.push(1);
    one(suite, caller, bytes, &lengths);
    let mut lengths = right.to_vec();
    lengths.push(1 << 63);
    one(suite, caller, bytes, &lengths);
    lengths.insert(0, 1 << 63);
    one(suite, caller, bytes, &lengths);
    if right.len() > 1 {
        let mut lengths = right.to_vec();
        let other = (place + 1) % right.len();
        lengths[place] = random.next() as usize;
        lengths[other] = right[other].wrapping_add(right[place].wrapping_sub(lengths[place]));
        one(suite, caller, bytes, &lengths);
    }
}

/// Sums of 65 lengths and none, and 64 lengths that all but wrap or do.
fn many_lengths(suite: &mut Suite, caller: &mut Caller) {
    for bytes in [&[][..], &[0x30], &[0x30, 0xAA]] {
        one(suite, caller, bytes, &[]);
        one(suite, caller, bytes, &[0]);
        one(suite, caller, bytes, &[usize::MAX]);
        one(suite, caller, bytes, &[1; 65]);
        one(suite, caller, bytes, &[usize::MAX; 65]);
        one(suite, caller, bytes, &[1 << 58; 64]);
        one(suite, caller, bytes, &[(1 << 58) - 1; 64]);
        one(suite, caller, bytes, &[usize::MAX; 64]);
        let mut lengths = [usize::MAX; 64];
        lengths[63] = 63 + bytes.len();
        one(suite, caller, bytes, &lengths);
        let mut lengths = [1 << 58; 64];
        lengths[5] += bytes.len();
        one(suite, caller, bytes, &lengths);
    }
}
