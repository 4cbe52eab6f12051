//! Valid segments damaged by flips, cuts and moved packets, with the CRC repaired in some.

use crate::helpers::segment::make::{Made, make};
use crate::helpers::segment::{Caller, exact, wide};
use crate::kit::{Definition, Random, Suite, labels};
use reference::compose::{repair_crc, segment};
use reference::packet::{self, SIZE};

pub const SUITE: Definition = Definition {
    name: "segment-damaged",
    labels: || labels(&[packet::CONDITIONS, LABELS].concat()),
    run,
};

const LABELS: &[&str] = &[
    "bit flipped",
    "byte replaced",
    "bit flipped in a header",
    "bit flipped in a section, CRC repaired",
    "byte replaced in a section, CRC repaired",
    "byte replaced in the AV1 PID",
    "cut at the end",
    "cut at the front",
    "cut by packets",
    "packet taken out",
    "packet repeated",
    "packets swapped",
    "packet of another segment",
    "several damages",
    "room too short",
    "accepted",
    "20: not a multiple of 188",
    "24: PID 0, with payload",
    "24: map PID, with payload",
    "24: AV1 PID, with payload",
    "24: AV1 PID, without payload",
    "24: other listed PID, with payload",
    "25: CRC",
    "25: no payload start",
    "25: later section not equal",
    "26: CRC",
    "26: no payload start",
    "26: later section not equal",
    "28: no AV1 entry",
    "29: before any start",
    "29: prefix",
    "30: flags 00",
    "31: no PCR yet",
    "32: PES longer than its length",
    "32: PES shorter than its length",
    "33: no PAT",
    "33: no PMT",
    "8: bytes of a starting packet",
    "8: bytes of a later packet",
    "closing: 9: no start code at the head",
    "closing: 5: size above what remains",
    "closing: 5: size below what remains",
];

/// The index of a packet on one of some PIDs.
fn packet_of(random: &mut Random, bytes: &[u8], pids: &[u16]) -> Option<usize> {
    let mut found = Vec::new();
    for (index, packet) in bytes.chunks_exact(SIZE).enumerate() {
        let pid = u16::from_be_bytes([packet[1], packet[2]]) & 0x1FFF;
        if pids.contains(&pid) {
            found.push(index);
        }
    }
    if found.is_empty() {
        return None;
    }
    Some(random.pick(&found))
}

/// Damages a segment in one way and names it.
fn damage(random: &mut Random, made: &Made, other: &[u8], bytes: &mut Vec<u8>) -> &'static str {
    if bytes.len() < SIZE {
        bytes.push(0x47);
        return "cut at the end";
    }
    let index = random.below(bytes.len() / SIZE);
    let any = random.below(bytes.len());
    let flip = 1u8 << random.below(8);
    match random.below(16) {
        how @ 0..=9 => damage_bytes(random, made, bytes, (how, index, any, flip)),
        how => damage_packets(random, other, bytes, (how, index, any)),
    }
}

/// Bytes of any kind of packet, of a section or of the AV1 PID changed.
fn damage_bytes(
    random: &mut Random,
    made: &Made,
    bytes: &mut [u8],
    (how, index, any, flip): (usize, usize, usize, u8),
) -> &'static str {
    match how {
        0 => {
            bytes[any] ^= flip;
            "bit flipped"
        }
        1 => {
            bytes[any] = random.next() as u8;
            "byte replaced"
        }
        2 | 3 => {
            bytes[index * SIZE + random.below(6)] ^= flip;
            "bit flipped in a header"
        }
        4..=6 => {
            let index = match packet_of(random, bytes, &[0, made.map_pid]) {
                Some(index) => index,
                _ => return "nothing",
            };
            let packet = &mut bytes[index * SIZE..][..SIZE];
            let at = 4 + random.below(80);
            packet[at] ^= flip;
            repair_crc(packet);
            "bit flipped in a section, CRC repaired"
        }
        7 => {
            let index = match packet_of(random, bytes, &[0, made.map_pid]) {
                Some(index) => index,
                _ => return "nothing",
            };
            let packet = &mut bytes[index * SIZE..][..SIZE];
            packet[5 + random.below(60)] = random.pick(&[0, 1, 2, 5, 6, 0x80, 0xFF, 0xE0]);
            repair_crc(packet);
            "byte replaced in a section, CRC repaired"
        }
        _ => {
            let index = match packet_of(random, bytes, &[made.accepted.pid]) {
                Some(index) => index,
                _ => return "nothing",
            };
            let reach = random.pick(&[40, 184]);
            let at = 4 + random.below(reach);
            bytes[index * SIZE + at] = match random.below(3) {
                0 => random.pick(&[0, 1, 2, 3, 0x30, 0x40, 0xFF]),
                1 => random.next() as u8,
                _ => bytes[index * SIZE + at] ^ flip,
            };
            "byte replaced in the AV1 PID"
        }
    }
}

/// Packets cut off, taken out, repeated, swapped or replaced.
fn damage_packets(
    random: &mut Random,
    other: &[u8],
    bytes: &mut Vec<u8>,
    (how, index, any): (usize, usize, usize),
) -> &'static str {
    let count = bytes.len() / SIZE;
    match how {
        10 => {
            if random.one_in(4) {
                bytes.truncate(any);
                "cut at the end"
            } else {
                bytes.truncate(index.max(1) * SIZE);
                "cut by packets"
            }
        }
        11 => {
            if random.one_in(4) {
                bytes.drain(..any % 400);
                "cut at the front"
            } else {
                bytes.drain(..index * SIZE);
                "cut by packets"
            }
        }
        12 => {
            bytes.drain(index * SIZE..(index + 1) * SIZE);
            "packet taken out"
        }
        13 => {
            let packet = bytes[index * SIZE..(index + 1) * SIZE].to_vec();
            let at = random.below(count + 1) * SIZE;
            bytes.splice(at..at, packet);
            "packet repeated"
        }
        14 => {
            let with = random.below(count);
            for at in 0..SIZE {
                bytes.swap(index * SIZE + at, with * SIZE + at);
            }
            "packets swapped"
        }
        _ => {
            let from = random.below(other.len() / SIZE) * SIZE;
            let packet = other[from..from + SIZE].to_vec();
            bytes.splice(index * SIZE..(index + 1) * SIZE, packet);
            "packet of another segment"
        }
    }
}

fn run(suite: &mut Suite) {
    let mut caller = Caller::default();
    let mut random = Random::new(37);
    let mut other = segment(&make(&mut random, 3, 100).packets);
    for round in 0..9000 {
        let longest = if round % 8 == 0 { 400 } else { 40 };
        let made = make(&mut random, 3, longest);
        let good = segment(&made.packets);
        for _ in 0..20 {
            let mut bytes = good.clone();
            let mut more = vec![damage(&mut random, &made, &other, &mut bytes)];
            while random.one_in(3) {
                more.push(damage(&mut random, &made, &other, &mut bytes));
            }
            if more.len() > 1 {
                more.push("several damages");
            }
            let mut rooms = wide(&bytes);
            if random.one_in(4) {
                let need = exact(&made.accepted.units);
                rooms.bytes = random.below(need.bytes + 1);
                more.push("room too short");
            }
            caller.check(suite, &bytes, rooms, &more);
        }
        other = good;
    }
}
