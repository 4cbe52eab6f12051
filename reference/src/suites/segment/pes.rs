//! PES headers: all values of every byte, all lengths, all times' bits.

use crate::helpers::segment::Caller;
use crate::helpers::segment::set_up::{AV1, OTHER, head, unit};
use crate::kit::{Definition, Random, Suite, labels};
use reference::compose::{Load, Packet, Pes, segment};
use reference::pes::CONDITIONS;

pub const SUITE: Definition = Definition {
    name: "segment-pes",
    labels: || labels(&[CONDITIONS, LABELS].concat()),
    run,
};

const LABELS: &[&str] = &[
    "accepted",
    "32: PES longer than its length",
    "32: PES shorter than its length",
    "closing: 9: no start code at the head",
    "byte changed",
    "two bytes changed",
    "length byte",
    "header alone",
    "short payload",
    "PES length",
    "PES length 0, one packet",
    "a time's bit",
    "times at the ends",
    "cut",
    "other listed PID",
];

/// PAT, PMT and PCR, the payloads of a PES, and one more PES behind it.
fn around(pid: u16, payloads: &[&[u8]]) -> Vec<u8> {
    let mut packets = head();
    for (index, payload) in payloads.iter().enumerate() {
        packets.push(Packet::new(pid, index == 0, Load::Bytes(payload.to_vec())));
    }
    packets.extend(Pes::new(180, Some(90), &unit(20)).packets(AV1));
    segment(&packets)
}

/// A segment with a PES in these payloads.
fn one(suite: &mut Suite, caller: &mut Caller, payloads: &[&[u8]], label: &str) {
    let bytes = around(AV1, payloads);
    caller.check_wide(suite, &bytes, &[label]);
}

fn run(suite: &mut Suite) {
    let mut caller = Caller::default();
    let mut random = Random::new(34);
    let plain = Pes::new(0x1_2345_6789, None, &unit(20));
    let mut stuffed = Pes::new(0x1_FFFF_FFFF, Some(0), &unit(20));
    stuffed.stuffing = 4;
    let with_dts = Pes::new(0x0_AAAA_5555, Some(0x1_5555_AAAA), &unit(20));
    let mut no_length = with_dts.clone();
    no_length.with_length = false;
    let kinds = [plain, stuffed, with_dts, no_length];
    for pes in &kinds {
        changed_bytes(suite, &mut caller, &mut random, pes);
        length_bytes(suite, &mut caller, pes);
        short_payloads(suite, &mut caller, pes);
        cuts(suite, &mut caller, pes);
        lengths(suite, &mut caller, pes);
    }

    times(suite, &mut caller, &mut random);
    other_streams(suite, &mut caller, &mut random);
}

/// Every byte of the header, and those of the unit's head, with every value; and two bytes at once.
fn changed_bytes(suite: &mut Suite, caller: &mut Caller, random: &mut Random, pes: &Pes) {
    let good = pes.bytes();
    for at in 0..pes.header_size() + 4 {
        for value in 0..=255 {
            let mut bytes = good.clone();
            bytes[at] = value;
            one(suite, caller, &[&bytes], "byte changed");
        }
    }
    for _ in 0..6000 {
        let mut bytes = good.clone();
        for _ in 0..2 {
            let at = 3 + random.below(pes.header_size() - 3);
            bytes[at] = match random.below(2) {
                0 => bytes[at] ^ 1 << random.below(8),
                _ => random.next() as u8,
            };
        }
        one(suite, caller, &[&bytes], "two bytes changed");
    }
}

/// Every length byte with all flags, the PES in one packet and in two.
fn length_bytes(suite: &mut Suite, caller: &mut Caller, pes: &Pes) {
    let good = pes.bytes();
    for length in 0..=255 {
        for flags in [0x00, 0x40, 0x80, 0xC0] {
            for total in [60, 184] {
                let mut bytes = good.clone();
                bytes[4..6].fill(0);
                bytes[7] = flags;
                bytes[8] = length;
                // Prefixes that fit the flags, so that the length decides.
                bytes[9] = bytes[9] & 0x0F | if flags == 0xC0 { 0x30 } else { 0x20 };
                bytes.resize(14.max(bytes.len()), 0x11);
                if flags == 0xC0 && bytes.len() >= 19 {
                    bytes[14..19].copy_from_slice(&[0x11, 0, 1, 0, 1]);
                }
                let head = 9 + usize::from(length);
                bytes.truncate(head.max(19));
                bytes.resize(head.max(19), 0xFF);
                bytes.truncate(head);
                bytes.extend(unit(30));
                bytes.resize(bytes.len().max(total), 0xAA);
                let (first, rest) = bytes.split_at(total.min(bytes.len()));
                if rest.is_empty() {
                    one(suite, caller, &[first], "length byte");
                } else if rest.len() <= 184 {
                    one(suite, caller, &[first, rest], "length byte");
                }
            }
        }
    }
}

/// Short payloads with every length byte that fits, and some more, with all flags.
fn short_payloads(suite: &mut Suite, caller: &mut Caller, pes: &Pes) {
    let good = pes.bytes();
    for total in 1..=24 {
        for length in 0..=16 {
            for flags in [0x00, 0x40, 0x80, 0xC0] {
                let mut bytes = good.clone();
                bytes[4..6].fill(0);
                bytes[7] = flags;
                bytes[8] = length;
                bytes.truncate(total);
                one(suite, caller, &[&bytes], "short payload");
                one(suite, caller, &[&bytes, &unit(9)], "short payload");
            }
        }
    }
}

/// The first packet ends anywhere in the header or at its end; the unit comes after it.
fn cuts(suite: &mut Suite, caller: &mut Caller, pes: &Pes) {
    let good = pes.bytes();
    for cut in 1..good.len() {
        let (first, rest) = good.split_at(cut);
        one(suite, caller, &[first, rest], "cut");
        if cut == pes.header_size() {
            one(suite, caller, &[first, rest], "header alone");
            one(suite, caller, &[first], "header alone");
        }
    }
}

/// PES lengths around the right one, all small ones and all high bytes.
fn lengths(suite: &mut Suite, caller: &mut Caller, pes: &Pes) {
    let good = pes.bytes();
    for length in (0..300).chain((0..=0xFFFF).step_by(97)) {
        let mut bytes = good.clone();
        bytes[4..6].copy_from_slice(&(length as u16).to_be_bytes());
        let label = if length == 0 {
            "PES length 0, one packet"
        } else {
            "PES length"
        };
        one(suite, caller, &[&bytes], label);
        let (first, rest) = bytes.split_at(pes.header_size() + 7);
        one(suite, caller, &[first, rest], "PES length");
    }
}

/// Every bit of both times, and the ends.
fn times(suite: &mut Suite, caller: &mut Caller, random: &mut Random) {
    for bit in 0..33 {
        for turned in [0, 0x1_FFFF_FFFF] {
            let ticks = 1u64 << bit ^ turned;
            one(
                suite,
                caller,
                &[&Pes::new(ticks, None, &unit(9)).bytes()],
                "a time's bit",
            );
            for other in [0, 0x1_FFFF_FFFF, ticks] {
                let pes = Pes::new(ticks, Some(other), &unit(9));
                one(suite, caller, &[&pes.bytes()], "a time's bit");
                let pes = Pes::new(other, Some(ticks), &unit(9));
                one(suite, caller, &[&pes.bytes()], "a time's bit");
            }
        }
    }
    for pts in [0, 1, 0x1_FFFF_FFFE, 0x1_FFFF_FFFF] {
        for dts in [None, Some(0), Some(1), Some(0x1_FFFF_FFFF)] {
            one(
                suite,
                caller,
                &[&Pes::new(pts, dts, &unit(9)).bytes()],
                "times at the ends",
            );
        }
    }
    for _ in 0..2000 {
        let dts = if random.one_in(2) {
            Some(random.next() >> 31)
        } else {
            None
        };
        let pes = Pes::new(random.next() >> 31, dts, &unit(9));
        one(suite, caller, &[&pes.bytes()], "times at the ends");
    }
}

/// The rules of a PES bind the AV1 PID alone.
fn other_streams(suite: &mut Suite, caller: &mut Caller, random: &mut Random) {
    for _ in 0..300 {
        let payload = random.fill(184, |random| random.next() as u8);
        let bytes = around(OTHER, &[&payload, &payload]);
        caller.check_wide_as(suite, &bytes, &["other listed PID"], |verdict| {
            verdict.is_ok()
        });
    }
}
