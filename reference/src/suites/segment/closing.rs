//! Units that are refused when their PES closes: every condition of reading, with its place, closed by the
//! next start or by the segment's end, and what comes between.

use crate::helpers::obu::KINDS;
use crate::helpers::segment::set_up::{AV1, OTHER, UNLISTED, head, pat_body, unit};
use crate::helpers::segment::{Caller, closing_labels, refused_at, refused_by, wide};
use crate::helpers::unit::broken::{bad_obus, illegal_payloads};
use crate::helpers::unit::{carry, carry_list, reading_conditions, shortest_obu};
use crate::kit::{Definition, Random, Suite, labels};
use reference::compose::{Load, Packet, Pes, segment};
use reference::unit as units;

pub const SUITE: Definition = Definition {
    name: "segment-closing",
    labels: || {
        let mut list = closing_labels(&reading_conditions());
        list.extend(labels(&[
            "accepted",
            "closed by a start",
            "closed by the end",
            "32 before the unit",
            "no unit byte",
            "an earlier unit comes first",
            "a later packet before the closing",
            "24 at the closing packet",
            "29 at the closing packet comes after",
            "payload start without payload does not close",
            "another PID's start does not close",
            "1,573,056 bytes as carried",
            "1,573,057 bytes as carried",
            "8 before a unit too long",
            "PES length 65,535",
            "PES of 65,536 bytes and more, length 0",
            "PES length wraps",
        ]));
        for number in [1, 2, 3, 4, 5, 6, 7, 9, 10, 42] {
            list.push(format!("32 before {number}"));
        }
        list
    },
    run,
};

/// A PES in packets of random sizes.
fn split(random: &mut Random, pes: &Pes) -> Vec<Packet> {
    let bytes = pes.bytes();
    let mut packets = Vec::new();
    let mut rest = &bytes[..];
    while !rest.is_empty() {
        let least = if packets.is_empty() {
            pes.header_size()
        } else {
            1
        };
        let len = match random.below(3) {
            0 => least + random.below(184 - least + 1),
            1 => least + random.below(8),
            _ => 184,
        };
        let (part, after) = rest.split_at(len.min(rest.len()));
        rest = after;
        packets.push(Packet::new(
            AV1,
            packets.is_empty(),
            Load::Bytes(part.to_vec()),
        ));
    }
    packets
}

/// A unit that is read or refused: between two others, and at the end. Its verdict is that of
/// reading it, at the packet that began it.
fn one(suite: &mut Suite, caller: &mut Caller, random: &mut Random, carried: &[u8], more: &[&str]) {
    let number = units::accept(carried).err().map(|refusal| refusal.number);
    for at_end in [false, true] {
        let mut packets = head();
        for _ in 0..random.below(3) {
            let content = random.below(300);
            packets.extend(split(random, &Pes::new(5, None, &unit(content))));
        }
        let began = packets.len();
        let mut pes = Pes::new(6, Some(5), carried);
        pes.with_length = random.one_in(2);
        packets.extend(split(random, &pes));
        let label = if at_end {
            "closed by the end"
        } else {
            "closed by a start"
        };
        if !at_end {
            packets.push(Packet::new(OTHER, true, Load::Bytes(vec![0x11; 50])));
            packets.extend(split(random, &Pes::new(7, None, &unit(30))));
        }
        let bytes = segment(&packets);
        let more = [more, &[label]].concat();
        caller.check_wide_as(suite, &bytes, &more, |verdict| match number {
            None => verdict.is_ok(),
            Some(number) => refused_at(verdict, number, began),
        });

        // With a PES length that is wrong too, 32 comes first.
        if let Some(number) = number {
            let mut changed = packets.clone();
            let length = match pes.bytes().len() {
                len if len < 60_000 => len as u16 - 5,
                _ => 1000,
            };
            changed[began].bytes_mut()[4..6].copy_from_slice(&length.to_be_bytes());
            let bytes = segment(&changed);
            let labels = ["32 before the unit", &format!("32 before {number}")];
            caller.check_wide_as(suite, &bytes, &labels, |verdict| {
                refused_at(verdict, 32, began)
            });
        }
    }
}

fn run(suite: &mut Suite) {
    let mut caller = Caller::default();
    let mut random = Random::new(36);

    // Units with one payload that is wrong, at all places.
    let mut bad = bad_obus();
    bad.extend(illegal_payloads());
    let frame = vec![0x32, 0x01, 0x66];
    let header = vec![0x0A, 0x02, 0x11, 0x22];
    for payload in &bad {
        for list in [
            vec![payload.clone()],
            vec![payload.clone(), frame.clone()],
            vec![header.clone(), payload.clone(), frame.clone()],
            vec![header.clone(), frame.clone(), payload.clone()],
        ] {
            one(suite, &mut caller, &mut random, &carry(&list), &[]);
        }
    }
    orders_and_heads(suite, &mut caller, &mut random);
    between(suite, &mut caller, &mut random);
    long_units(suite, &mut caller);
    long_obus(suite, &mut caller, &mut random);
    long_lengths(suite, &mut caller);
}

/// Orders, numbers of OBUs, and no start code; 16 is a frame shown again.
fn orders_and_heads(suite: &mut Suite, caller: &mut Caller, random: &mut Random) {
    for kinds in [
        &[1, 2, 6][..],
        &[4],
        &[7, 6],
        &[6, 6],
        &[6, 15],
        &[3, 3, 4],
        &[3, 1, 4],
        &[2],
        &[3],
        &[3, 4, 15],
        &[3, 4],
        &[6],
        &[2, 15, 6],
        &[16],
        &[2, 1, 16],
        &[16, 4],
        &[2, 16, 16],
    ] {
        let list: Vec<Vec<u8>> = kinds
            .iter()
            .map(|&kind| shortest_obu(KINDS[kind]))
            .collect();
        one(suite, caller, random, &carry_list(&list), &[]);
    }
    for count in [63, 64, 65, 66, 200] {
        let mut list = vec![vec![0x78]; count - 1];
        list.push(vec![0x32, 0x01, 0x66]);
        one(suite, caller, random, &carry(&list), &[]);
    }
    for carried in [
        &[][..],
        &[0],
        &[0, 0],
        &[0, 0, 1],
        &[0, 0, 2, 0x30],
        &[1, 0, 0, 1, 0x30],
    ] {
        let more: &[&str] = if carried.is_empty() {
            &["no unit byte"]
        } else {
            &[]
        };
        one(suite, caller, random, carried, more);
    }
}

/// A segment that must be refused by a number at a place.
fn expect(
    suite: &mut Suite,
    caller: &mut Caller,
    packets: &[Packet],
    label: &str,
    (number, place): (u64, usize),
) {
    let bytes = segment(packets);
    caller.check_wide_as(suite, &bytes, &[label], |verdict| {
        refused_at(verdict, number, place)
    });
}

/// What comes between a unit's start and its closing.
fn between(suite: &mut Suite, caller: &mut Caller, random: &mut Random) {
    let bad = [0, 0, 1, 0x40];
    for _ in 0..50 {
        let mut packets = head();
        let first = packets.len();
        packets.extend(Pes::new(1, None, &bad).packets(AV1));
        // A second that is wrong too: the earlier one comes first.
        let mut two = packets.clone();
        two.extend(Pes::new(2, None, &[0, 0, 1]).packets(AV1));
        expect(
            suite,
            caller,
            &two,
            "an earlier unit comes first",
            (6, first),
        );

        // A packet without payload, with payload start, does not close; nor does another PID's.
        let mut open = packets.clone();
        open.push(Packet::new(AV1, true, Load::Nothing));
        open.push(Packet::new(OTHER, true, Load::Bytes(vec![0x22; 184])));
        open.push(Packet::section(0, pat_body()));
        let mut wrong = Packet::new(UNLISTED, false, Load::Bytes(vec![0x22; 184]));
        wrong.patches.push((0, 0x48));
        let at = open.len();
        let mut later = open.clone();
        later.push(wrong);
        expect(
            suite,
            caller,
            &later,
            "payload start without payload does not close",
            (21, at),
        );
        expect(
            suite,
            caller,
            &later,
            "another PID's start does not close",
            (21, at),
        );
        expect(
            suite,
            caller,
            &later,
            "a later packet before the closing",
            (21, at),
        );

        at_the_closing_packet(suite, caller, random, &packets, first);
    }
}

/// At the closing packet 24 comes first, 29 and the rest after.
fn at_the_closing_packet(
    suite: &mut Suite,
    caller: &mut Caller,
    random: &mut Random,
    packets: &[Packet],
    first: usize,
) {
    let mut counter = packets.to_vec();
    let mut start = Pes::new(2, None, &unit(random.below(40))).packets(AV1);
    start[0].counter = Some(4);
    let at = counter.len();
    counter.extend(start.clone());
    expect(
        suite,
        caller,
        &counter,
        "24 at the closing packet",
        (24, at),
    );
    let mut prefix = packets.to_vec();
    start[0].counter = None;
    start[0].bytes_mut()[random.below(4)] ^= 1 << random.below(8);
    prefix.extend(start);
    expect(
        suite,
        caller,
        &prefix,
        "29 at the closing packet comes after",
        (6, first),
    );
}

/// Units around 1,573,056 bytes as carried.
fn long_units(suite: &mut Suite, caller: &mut Caller) {
    for total in [
        units::MOST_CARRIED - 1,
        units::MOST_CARRIED,
        units::MOST_CARRIED + 1,
    ] {
        // Zeros throughout: two of three carried bytes are OBU bytes.
        let mut list = Vec::new();
        for index in 0..64 {
            let mut obu = vec![0; units::MOST_BYTES / 64];
            obu[0] = if index == 63 { 0x30 } else { 0x78 };
            list.push(obu);
        }
        let mut payloads: Vec<Vec<u8>> = Vec::new();
        for obu in &list {
            let mut payload = reference::payload::escaped(obu);
            if payload.ends_with(&[0, 0]) {
                payload.push(3);
            }
            payloads.push(payload);
        }
        let mut carried = carry(&payloads);
        carried.resize(total, 0xAA);
        for (index, byte) in [(0, None), (1, Some(0x40u8))] {
            let mut carried = carried.clone();
            if let Some(byte) = byte {
                carried[3] = byte;
            }
            let mut packets = head();
            packets.extend(Pes::new(6, Some(5), &carried).packets(AV1));
            let bytes = segment(&packets);
            let label = match total {
                units::MOST_CARRIED => "1,573,056 bytes as carried",
                _ if total > units::MOST_CARRIED => "1,573,057 bytes as carried",
                _ => "1,573,055 bytes as carried",
            };
            caller.check_wide(suite, &bytes, &[label]);
            if index == 0 && total > units::MOST_CARRIED {
                for less in [1, 2, 200] {
                    let mut rooms = wide(&bytes);
                    rooms.bytes = carried.len() - less;
                    let label = "8 before a unit too long";
                    caller.check_as(suite, &bytes, rooms, &[label], |verdict| {
                        refused_by(verdict, 8)
                    });
                }
                let mut rooms = wide(&bytes);
                rooms.bytes = carried.len();
                caller.check(suite, &bytes, rooms, &[label]);
            }
        }
    }
}

/// Units around 1,048,576 bytes of OBUs.
fn long_obus(suite: &mut Suite, caller: &mut Caller, random: &mut Random) {
    for total in [
        units::MOST_BYTES - 1,
        units::MOST_BYTES,
        units::MOST_BYTES + 1,
    ] {
        let mut carried = vec![0, 0, 1, 0x30];
        carried.resize(3 + total, 0x77);
        one(suite, caller, random, &carried, &[]);
    }
}

/// PES lengths around the most that the field can say.
fn long_lengths(suite: &mut Suite, caller: &mut Caller) {
    for after in [65_534, 65_535, 65_536, 65_537, 65_636, 131_072, 131_172] {
        for length in [0, 1, 100, 65_534, 65_535, after % 65_536] {
            // Behind the length field, eight bytes of header and the unit's nine come first.
            let pes = Pes::new(6, None, &unit(after - 8 - 9));
            let mut packets = head();
            let began = packets.len();
            packets.extend(pes.packets(AV1));
            let field = (length as u16).to_be_bytes();
            packets[began].bytes_mut()[4..6].copy_from_slice(&field);
            let bytes = segment(&packets);
            let label = if length == 0 && after > 65_535 {
                "PES of 65,536 bytes and more, length 0"
            } else if length == after {
                "PES length 65,535"
            } else if length == after % 65_536 {
                "PES length wraps"
            } else {
                "PES length wrong"
            };
            caller.check_wide_as(suite, &bytes, &[label], |verdict| {
                verdict.is_ok() == (length == 0 || length == after)
            });
        }
    }
}
