//! Packet headers and adaptation fields: all values of each byte, on every kind of PID.

use crate::helpers::segment::Caller;
use crate::helpers::segment::set_up::{
    AV1, MAP, OTHER, UNLISTED, entries, head, pat_body, pmt_body, unit,
};
use crate::kit::{Definition, Random, Suite, labels};
use reference::compose::{Load, Packet, Pes, segment};
use reference::packet::{self, NULL, SIZE};

pub const SUITE: Definition = Definition {
    name: "segment-packets",
    labels: || labels(&[packet::CONDITIONS, LABELS].concat()),
    run,
};

const LABELS: &[&str] = &[
    "accepted",
    "PID 0",
    "map PID",
    "AV1 PID",
    "other listed PID",
    "unlisted PID",
    "null",
    "first byte",
    "second byte",
    "control and adaptation length",
    "adaptation flags",
    "PCR extension",
    "any PID",
];

/// PAT, PMT, PCR and a unit; then the packet that is tried, and another of a unit.
fn around(tried: Packet) -> Vec<u8> {
    let mut packets = head();
    packets.extend(Pes::new(90, None, &unit(20)).packets(AV1));
    packets.push(tried);
    packets.extend(Pes::new(180, Some(90), &unit(20)).packets(AV1));
    segment(&packets)
}

/// The index of the packet that is tried.
const TRIED: usize = 4;

/// Where it begins.
const AT: usize = TRIED * SIZE;

/// Segments that are right, with each kind of packet on each kind of PID at the place tried.
fn tried() -> Vec<(&'static str, Vec<u8>)> {
    let mut all = Vec::new();
    for (pid, name) in [
        (0, "PID 0"),
        (MAP, "map PID"),
        (AV1, "AV1 PID"),
        (OTHER, "other listed PID"),
        (UNLISTED, "unlisted PID"),
        (NULL, "null"),
    ] {
        let mut tried = match pid {
            0 => Packet::section(0, pat_body()),
            MAP => Packet::section(MAP, pmt_body(&entries())),
            AV1 => Pes::new(120, None, &unit(161)).packets(AV1).remove(0),
            _ => Packet::new(pid, false, Load::Bytes(vec![0xFF; 184])),
        };
        all.push((name, around(tried.clone())));
        tried.field = 0;
        tried.pcr = Some((77, 7));
        if pid == AV1 {
            tried.load = Load::Bytes(Pes::new(120, None, &unit(100)).bytes());
        } else if let Load::Bytes(bytes) = &mut tried.load {
            bytes.truncate(150);
        }
        all.push((name, around(tried.clone())));
        all.push((name, around(Packet::new(pid, true, Load::Nothing))));
    }
    all
}

fn run(suite: &mut Suite) {
    let mut caller = Caller::default();
    let mut random = Random::new(32);
    for (name, good) in &tried() {
        first_bytes(suite, &mut caller, name, good);
        controls(suite, &mut caller, name, good);
        flags(suite, &mut caller, name, good);
        extensions(suite, &mut caller, &mut random, name, good);
    }

    every_pid(suite, &mut caller);
}

/// The first two bytes: all values. The rest of the PID stays.
fn first_bytes(suite: &mut Suite, caller: &mut Caller, name: &str, good: &[u8]) {
    for value in 0..=255 {
        for (place, label) in [(0, "first byte"), (1, "second byte")] {
            let mut bytes = good.to_vec();
            bytes[AT + place] = value;
            caller.check_wide(suite, &bytes, &[name, label]);
        }
    }
}

/// All of the fourth byte's upper half, with all lengths and some flags behind it.
fn controls(suite: &mut Suite, caller: &mut Caller, name: &str, good: &[u8]) {
    for control in 0..16 {
        for length in 0..=255 {
            for flags in [None, Some(0x00), Some(0x10), Some(0x80), Some(0xFF)] {
                let mut bytes = good.to_vec();
                bytes[AT + 3] = control << 4 | bytes[AT + 3] & 0x0F;
                bytes[AT + 4] = length;
                if let Some(flags) = flags {
                    bytes[AT + 5] = flags;
                    // An extension of 255 at most, so that it is not always refused.
                    bytes[AT + 10] &= 0xFE;
                }
                let label = "control and adaptation length";
                caller.check_wide(suite, &bytes, &[name, label]);
            }
        }
    }
}

/// All flags, at lengths around those that count.
fn flags(suite: &mut Suite, caller: &mut Caller, name: &str, good: &[u8]) {
    for flags in 0..=255 {
        for (control, length) in [
            (0x20, 183),
            (0x30, 0),
            (0x30, 1),
            (0x30, 6),
            (0x30, 7),
            (0x30, 8),
            (0x30, 182),
        ] {
            let mut bytes = good.to_vec();
            bytes[AT + 3] = control | bytes[AT + 3] & 0x0F;
            bytes[AT + 4] = length;
            bytes[AT + 5] = flags;
            bytes[AT + 10] &= 0xFE;
            caller.check_wide(suite, &bytes, &[name, "adaptation flags"]);
        }
    }
}

/// All extensions, with any base and any reserved bits.
fn extensions(
    suite: &mut Suite,
    caller: &mut Caller,
    random: &mut Random,
    name: &str,
    good: &[u8],
) {
    for extension in 0..512u64 {
        for control in [0x20, 0x30] {
            let mut bytes = good.to_vec();
            bytes[AT + 3] = control | bytes[AT + 3] & 0x0F;
            bytes[AT + 4] = if control == 0x20 { 183 } else { 7 + 30 };
            bytes[AT + 5] = 0x10;
            let bits = random.next() << 9 | extension;
            bytes[AT + 6..AT + 12].copy_from_slice(&bits.to_be_bytes()[2..]);
            caller.check_wide(suite, &bytes, &[name, "PCR extension"]);
        }
    }
}

/// Every PID, with payload of any bytes and with wrong control.
fn every_pid(suite: &mut Suite, caller: &mut Caller) {
    for pid in 0..=NULL {
        let mut packet = Packet::new(pid, false, Load::Bytes(vec![0x5A; 184]));
        let bytes = around(packet.clone());
        caller.check_wide(suite, &bytes, &["any PID"]);
        packet.load = Load::Nothing;
        let mut bytes = around(packet);
        caller.check_wide(suite, &bytes, &["any PID"]);
        bytes[AT + 3] &= 0x0F;
        caller.check_wide(suite, &bytes, &["any PID"]);
    }
}
