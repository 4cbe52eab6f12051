//! The limits of a segment and one more: packets, units, streams; and 34 among the others.

use crate::helpers::segment::faults::{Base, Fault, Faults};
use crate::helpers::segment::pairs::{pair, single};
use crate::helpers::segment::set_up::{
    AV1, MAP, OTHER, UNLISTED, VIDEO, entries, head, more_entries, pat_body, pmt_body, unit,
};
use crate::helpers::segment::{Caller, exact, wide};
use crate::kit::{Definition, Suite, labels};
use reference::compose::{Entry, Load, Packet, Pes, segment};
use reference::packet::SIZE;
use reference::segment::{self, MOST_PACKETS, MOST_UNITS};
use std::rc::Rc;

pub const SUITE: Definition = Definition {
    name: "segment-limits",
    labels: || {
        let mut list = labels(&[
            "accepted",
            "20: no bytes",
            "20: not a multiple of 188",
            "20: over 65,535 packets",
            "34: a 1,025th unit",
            "65,535 packets",
            "65,536 packets",
            "one packet",
            "1,024 units",
            "1,025 units",
            "12 streams, all used",
            "13 streams",
            "27: more than 12 entries",
            "33: no PAT",
            "33: no PMT",
            "every length up to three packets",
            "20 before 21",
            "21 at the last packet",
            "place of 33",
        ]);
        let order = [21, 22, 23, 24, 32, 6, 34, 8];
        for (i, first) in order.iter().enumerate() {
            for second in &order[i + 1..] {
                list.push(format!("{first} before {second} at one packet"));
            }
        }
        for first in [29, 30] {
            list.push(format!("{first} before 34 at one packet"));
        }
        list
    },
    run,
};

fn run(suite: &mut Suite) {
    let mut caller = Caller::default();
    packets(suite, &mut caller);
    units(suite, &mut caller);
    among_others(suite, &mut caller);
    streams(suite, &mut caller);

    // Every length up to three packets and some more.
    let mut bytes = segment(&head());
    bytes.extend([0x47; SIZE]);
    for length in 0..=3 * SIZE + 20 {
        let part = &bytes[..length];
        let label = "every length up to three packets";
        caller.check_wide(suite, part, &[label]);
        let mut wrong = part.to_vec();
        if let Some(first) = wrong.first_mut() {
            *first = 0;
        }
        caller.check(suite, &wrong, wide(part), &["20 before 21"]);
    }
    for count in 1..=3 {
        let part = &bytes[..count * SIZE];
        caller.check_wide_as(suite, part, &["place of 33"], |verdict| match verdict {
            Ok(_) => count > 1,
            Err(refusal) => (refusal.number, refusal.place) == (33, count as u64),
        });
    }
    for packet in [
        Packet::null(),
        Packet::section(0, pat_body()),
        Packet::section(MAP, pmt_body(&entries())),
        Packet::new(UNLISTED, false, Load::Nothing),
    ] {
        let bytes = segment(&[packet]);
        caller.check_wide(suite, &bytes, &["one packet"]);
    }
}

/// 65,535 packets and 65,536, of several kinds.
fn packets(suite: &mut Suite, caller: &mut Caller) {
    let fill = |count: usize, filler: &dyn Fn(usize) -> Packet, tail: Vec<Packet>| {
        let mut packets = head();
        while packets.len() + tail.len() < count {
            packets.push(filler(packets.len()));
        }
        packets.extend(tail);
        segment(&packets)
    };
    let last = || Pes::new(1, Some(2), &unit(60)).packets(AV1);
    let fillers: [&dyn Fn(usize) -> Packet; 3] = [
        &|_| Packet::null(),
        &|index| match index % 5 {
            0 => Packet::null(),
            1 => Packet::new(OTHER, true, Load::Bytes(vec![1; 184])),
            2 => Packet::new(UNLISTED, true, Load::Bytes(vec![2; 184])),
            3 => Packet::section(0, pat_body()),
            _ => Packet::section(MAP, pmt_body(&entries())),
        },
        &|_| Packet::new(AV1, false, Load::Nothing),
    ];
    for filler in fillers {
        for count in [MOST_PACKETS - 1, MOST_PACKETS, MOST_PACKETS + 1] {
            let bytes = fill(count, filler, last());
            let label = match count {
                MOST_PACKETS => "65,535 packets",
                _ if count > MOST_PACKETS => "65,536 packets",
                _ => "65,534 packets",
            };
            let mut rooms = wide(&bytes);
            rooms.bytes = 1000;
            caller.check_as(suite, &bytes, rooms, &[label], |verdict| match verdict {
                Ok(accepted) => count <= MOST_PACKETS && accepted.units.len() == 1,
                Err(refusal) => count > MOST_PACKETS && refusal.number == 20,
            });
            let mut wrong = bytes.clone();
            let at = wrong.len() - SIZE;
            wrong[at] = 0;
            let label = if count > MOST_PACKETS {
                "20 before 21"
            } else {
                "21 at the last packet"
            };
            caller.check(suite, &wrong, rooms, &[label]);
        }
    }
    full_packets(suite, caller);
}

/// Units in all packets: each 64 packets.
fn full_packets(suite: &mut Suite, caller: &mut Caller) {
    let mut packets = head();
    while packets.len() + 64 <= MOST_PACKETS {
        packets.extend(Pes::new(9, None, &unit(64 * 184 - 14 - 9)).packets(AV1));
    }
    assert!(packets.len() < MOST_PACKETS);
    while packets.len() < MOST_PACKETS {
        packets.push(Packet::null());
    }
    let bytes = segment(&packets);
    let accepted = segment::check(&bytes, wide(&bytes)).expect("it is right");
    let rooms = exact(&accepted.units);
    caller.check(suite, &bytes, rooms, &["65,535 packets"]);
    caller.check_wide(suite, &bytes, &["65,535 packets"]);
    let mut short = rooms;
    short.bytes -= 1;
    caller.check(suite, &bytes, short, &["65,535 packets"]);
}

/// 1,024 units and 1,025.
fn units(suite: &mut Suite, caller: &mut Caller) {
    for count in [
        1,
        MOST_UNITS - 1,
        MOST_UNITS,
        MOST_UNITS + 1,
        MOST_UNITS + 2,
    ] {
        let mut packets = head();
        for index in 0..count as u64 {
            let dts = if index % 3 == 0 { Some(index) } else { None };
            packets.extend(Pes::new(5 * index, dts, &unit((index % 7) as usize)).packets(AV1));
        }
        let bytes = segment(&packets);
        let label = match count {
            MOST_UNITS => "1,024 units",
            _ if count == MOST_UNITS + 1 => "1,025 units",
            _ => "other units",
        };
        for room in [count, count.saturating_sub(1), MOST_UNITS, MOST_UNITS + 4] {
            let mut rooms = wide(&bytes);
            rooms.lengths = room;
            caller.check(suite, &bytes, rooms, &[label]);
            rooms.times = 2 * room;
            rooms.lengths = MOST_UNITS + 4;
            caller.check(suite, &bytes, rooms, &[label]);
        }
        caller.check_wide_as(suite, &bytes, &[label], |verdict| match verdict {
            Ok(accepted) => count <= MOST_UNITS && accepted.units.len() == count,
            Err(refusal) => count > MOST_UNITS && refusal.number == 34,
        });
    }
}

/// 34 among the other refusals: what else can be wrong at the packet that begins the 1,025th unit, in
/// pairs with 34 and with each other.
fn among_others(suite: &mut Suite, caller: &mut Caller) {
    let mut packets = head();
    for _ in 0..MOST_UNITS - 1 {
        packets.extend(Pes::new(3, None, &[0, 0, 1, 0x30]).packets(AV1));
    }
    let last = packets.len();
    packets.extend(Pes::new(4, None, &unit(30)).packets(AV1));
    let at = packets.len();
    packets.extend(Pes::new(7, None, &unit(25)).packets(AV1));
    let base = Base::new(packets);
    let too_many = Fault {
        condition: "34: a 1,025th unit".to_string(),
        number: 34,
        place: at,
        moment: at,
        // It is there from the first.
        apply: Rc::new(|_| {}),
    };
    let mut faults = Faults::default();
    faults.packet(at);
    faults.counter("24: AV1 PID, with payload", at);
    faults.start(at, false);
    faults.closing_short(last, at);
    let bytes_before = 4 * (MOST_UNITS - 1) + unit(30).len();
    faults.rooms(at, Some(MOST_UNITS), bytes_before + unit(25).len() - 1);
    single(suite, caller, &base, &too_many);
    for fault in &faults.list {
        pair(suite, caller, &base, fault, &too_many);
        for second in &faults.list {
            if fault.number != second.number {
                pair(suite, caller, &base, fault, second);
            }
        }
    }
    // With one unit fewer it is right.
    let mut fewer = base.clone();
    fewer.packets.remove(5);
    let bytes = fewer.bytes();
    caller.check_wide_as(suite, &bytes, &["1,024 units"], |verdict| verdict.is_ok());
}

/// Twelve streams that all have packets, their counters going on by themselves; thirteen.
fn streams(suite: &mut Suite, caller: &mut Caller) {
    for count in [1, 2, 11, 12, 13] {
        for at in 0..count {
            let mut list = Vec::new();
            more_entries(&mut list, count);
            list[at] = Entry::av1(AV1, &VIDEO);
            let mut packets = head();
            packets[1] = Packet::section(MAP, pmt_body(&list));
            for round in 0..20 {
                for entry in &list {
                    if entry.pid != AV1 {
                        let load = if round % 3 == 0 {
                            Load::Nothing
                        } else {
                            Load::Bytes(vec![round; 184])
                        };
                        packets.push(Packet::new(entry.pid, false, load));
                    }
                }
                packets.extend(Pes::new(u64::from(round), None, &unit(10)).packets(AV1));
            }
            let label = match count {
                12 => "12 streams, all used",
                13 => "13 streams",
                _ => "fewer streams",
            };
            let bytes = segment(&packets);
            caller.check_wide_as(suite, &bytes, &[label], |verdict| match verdict {
                Ok(accepted) => count < 13 && accepted.units.len() == 20,
                Err(refusal) => count == 13 && (refusal.number, refusal.place) == (27, 1),
            });
            // A counter that is wrong, of each stream in turn, at its second packet and its last.
            for entry in &list {
                let own: Vec<usize> = (3..packets.len())
                    .filter(|&i| packets[i].pid == entry.pid)
                    .collect();
                for place in [own[1], own[own.len() - 1]] {
                    let mut bytes = bytes.clone();
                    let byte = &mut bytes[place * SIZE + 3];
                    *byte = (*byte & 0xF0) | ((*byte + 5) & 0x0F);
                    caller.check_wide(suite, &bytes, &[label]);
                }
            }
        }
    }
}
