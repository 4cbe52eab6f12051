//! The repeated packet: copies of every kind of packet, and what is no copy.

use crate::helpers::segment::faults::base;
use crate::helpers::segment::make::{Made, make};
use crate::helpers::segment::set_up::{
    AV1, MAP, OTHER, PROGRAM, SECOND, entries, head, pat_body, pmt_body, unit,
};
use crate::helpers::segment::{Caller, Verdict, exact, refused_at, refused_by, wide};
use crate::kit::{Definition, Random, Suite, labels};
use reference::compose::{self, Load, Packet, Pes, segment};
use reference::packet::{NULL, SIZE};
use reference::segment::{Accepted, CONDITIONS_24, Class, MOST_UNITS, check};

pub const SUITE: Definition = Definition {
    name: "segment-copies",
    labels: || {
        let mut list = labels(CONDITIONS_24);
        list.extend(labels(&[
            "accepted",
            "21: first byte is not 47",
            "22: transport error",
            "23: PCR extension above 299",
            "base: a copy",
            "base: without payload",
            "base: null or unlisted",
            "base: another PID between",
            "base: a third copy",
            "base: every packet copied",
            "without payload between",
            "the last packet without payload",
            "discontinuity: both packets",
            "discontinuity: the second alone",
            "discontinuity: the first alone",
            "discontinuity: three packets",
            "after a copy: the next counter",
            "after a copy: without payload",
            "after a copy: another counter",
            "after a copy: the next and its copy",
            "after a copy: an older packet",
            "the counter goes round",
            "across naming: PAT",
            "across naming: PMT, AV1",
            "across naming: PMT, other listed",
            "a copy's PCR counts: PAT",
            "a copy's PCR counts: PMT",
            "a copy's PCR counts: PMT after PAT and PMT",
            "31: no PCR yet",
            "1,024 units, every packet copied",
            "exact rooms",
            "made: copies of some",
            "made: copies of all",
            "made: copies, one wrong",
            "runs",
        ]));
        for kind in kinds() {
            let name = kind.name;
            list.push(format!("copy of {name}"));
            list.push(format!("third copy of {name}"));
            list.push(format!("{name}, a byte changed: 24"));
            if kind.has_pcr() {
                list.push(format!("{name}, PCR changed"));
                list.push(format!("{name}, PCR extension above 299"));
            } else {
                list.push(format!("{name}, bytes 6 to 11 changed: 24"));
            }
        }
        list
    },
    run,
};

/// A packet's bytes.
type Bytes = Vec<u8>;

fn split(segment: &[u8]) -> Vec<Bytes> {
    segment.chunks(SIZE).map(|packet| packet.to_vec()).collect()
}

fn pid_of(packet: &[u8]) -> u16 {
    u16::from_be_bytes([packet[1], packet[2]]) & 0x1FFF
}

fn has_payload(packet: &[u8]) -> bool {
    packet[3] & 0x10 != 0
}

fn has_discontinuity(packet: &[u8]) -> bool {
    packet[3] & 0x20 != 0 && packet[4] > 0 && packet[5] & 0x80 != 0
}

/// Where the next packet of the PID of the packet at a place stands, or the end.
fn next_of(packets: &[Bytes], at: usize) -> usize {
    let pid = pid_of(&packets[at]);
    (at + 1..packets.len())
        .find(|&other| pid_of(&packets[other]) == pid)
        .unwrap_or(packets.len())
}

/// What the check gives for packets, with room for all.
fn verdict(packets: &[Bytes]) -> Verdict {
    let bytes = packets.concat();
    check(&bytes, wide(&bytes))
}

/// Packets that must be accepted as given.
fn accepted(
    suite: &mut Suite,
    caller: &mut Caller,
    packets: &[Bytes],
    expected: &Accepted,
    more: &[&str],
) {
    let bytes = packets.concat();
    for rooms in [wide(&bytes), exact(&expected.units)] {
        caller.check_as(suite, &bytes, rooms, more, |verdict| {
            verdict.as_ref() == Ok(expected)
        });
    }
}

/// Packets that must be refused with a number at a place.
fn refused(
    suite: &mut Suite,
    caller: &mut Caller,
    packets: &[Bytes],
    (number, place): (u64, usize),
    more: &[&str],
) {
    let bytes = packets.concat();
    caller.check_wide_as(suite, &bytes, more, |verdict| {
        refused_at(verdict, number, place)
    });
}

/// The class of a PID of the segments here, once it is named.
fn class(pid: u16) -> Class {
    match pid {
        NULL => Class::Null,
        0 | MAP => Class::Section,
        AV1 => Class::Av1,
        OTHER | SECOND => Class::OtherListed,
        _ => Class::Unlisted,
    }
}

/// The same, with one packet more of a PID.
fn one_more(accepted: &Accepted, pid: u16) -> Accepted {
    let mut accepted = accepted.clone();
    accepted.totals.add(class(pid));
    accepted
}

/// Every packet of the base copied, at every place up to its PID's next packet.
fn copies_of_base(suite: &mut Suite, caller: &mut Caller) {
    let packets = split(&base().bytes());
    let plain = verdict(&packets).expect("the base is right");
    for at in 0..packets.len() {
        let pid = pid_of(&packets[at]);
        let expected = one_more(&plain, pid);
        let watched = !matches!(class(pid), Class::Null | Class::Unlisted);
        let label = if !watched {
            "base: null or unlisted"
        } else if has_payload(&packets[at]) {
            "base: a copy"
        } else {
            "base: without payload"
        };
        let next = next_of(&packets, at);
        for second in at + 1..=next {
            let mut more = vec![label];
            if second > at + 1 {
                more.push("base: another PID between");
            }
            let mut with_copy = packets.clone();
            with_copy.insert(second, packets[at].clone());
            accepted(suite, caller, &with_copy, &expected, &more);
            // And once more, up to the next packet of the PID, which now stands one place later.
            for third in second + 1..=next + 1 {
                let mut with_third = with_copy.clone();
                with_third.insert(third, packets[at].clone());
                if watched && has_payload(&packets[at]) {
                    let more = ["base: a third copy"];
                    refused(suite, caller, &with_third, (24, third), &more);
                } else {
                    let expected = one_more(&expected, pid);
                    accepted(suite, caller, &with_third, &expected, &[label]);
                }
            }
        }
    }
    let mut doubled = Vec::new();
    let mut expected = plain;
    for packet in packets {
        expected = one_more(&expected, pid_of(&packet));
        doubled.extend([packet.clone(), packet]);
    }
    let more = ["base: every packet copied"];
    accepted(suite, caller, &doubled, &expected, &more);
}

/// A segment in which a packet of some kind stands.
struct Kind {
    name: &'static str,
    packets: Vec<Packet>,
    at: usize,
}

impl Kind {
    fn has_pcr(&self) -> bool {
        self.packets[self.at].pcr.is_some()
    }
}

/// A PES in three packets with payloads of these lengths.
fn pes(sizes: [usize; 3]) -> Vec<Packet> {
    let total: usize = sizes.iter().sum();
    let bytes = Pes::new(90, None, &unit(total - 14 - 9)).bytes();
    let mut packets = Vec::new();
    let mut rest = &bytes[..];
    for size in sizes {
        let (part, after) = rest.split_at(size);
        rest = after;
        let load = Load::Bytes(part.to_vec());
        packets.push(Packet::new(AV1, packets.is_empty(), load));
    }
    packets
}

/// A packet of a PES: its name, which of three packets it is, their payloads, and what is changed.
type OfPes = (&'static str, usize, [usize; 3], fn(&mut Packet));

const OF_PES: &[OfPes] = &[
    ("a start", 0, [184, 184, 50], |_| {}),
    ("a start with stuffing", 0, [150, 184, 50], |_| {}),
    ("a start with PCR", 0, [176, 184, 50], |packet| {
        packet.pcr = Some((5, 150));
    }),
    ("a start with PCR and OPCR", 0, [160, 184, 50], |packet| {
        packet.pcr = Some((7, 160));
        packet.flags = 0x08;
    }),
    ("a start with OPCR alone", 0, [160, 184, 50], |packet| {
        packet.flags = 0x08;
    }),
    (
        "a start with a field of no flags",
        0,
        [183, 184, 50],
        |_| {},
    ),
    ("a middle packet", 1, [184, 184, 50], |_| {}),
    ("a middle packet with PCR", 1, [184, 176, 50], |packet| {
        packet.pcr = Some((9, 170));
    }),
    // Behind a field of length 0 stands what would be flags with a PCR.
    (
        "a middle packet with a field of no flags",
        1,
        [184, 183, 50],
        |packet| {
            packet.bytes_mut()[0] = 0x10;
        },
    ),
    ("a last packet", 2, [184, 184, 50], |_| {}),
    ("a last packet with PCR", 2, [184, 184, 50], |packet| {
        packet.pcr = Some((11, 180));
    }),
];

/// The kinds of packets with payload that can be copied.
fn kinds() -> Vec<Kind> {
    let pcr = Some((0x1_2345_6789, 150));
    let mut kinds = Vec::new();
    let mut add = |name, at, packets: Vec<Packet>| {
        let mut all = head();
        let at = all.len() + at;
        all.extend(packets);
        kinds.push(Kind {
            name,
            packets: all,
            at,
        });
    };
    for &(name, at, sizes, change) in OF_PES {
        let mut packets = pes(sizes);
        change(&mut packets[at]);
        add(name, at, packets);
    }
    for (pid, names) in [
        (0, ["a PAT", "a PAT beside a field", "a PAT with PCR"]),
        (MAP, ["a PMT", "a PMT beside a field", "a PMT with PCR"]),
    ] {
        let body = if pid == 0 {
            pat_body()
        } else {
            pmt_body(&entries())
        };
        let plain = Packet::section(pid, body);
        let mut beside = plain.clone();
        beside.field = 20;
        let mut with_pcr = plain.clone();
        with_pcr.pcr = pcr;
        for (name, packet) in names.into_iter().zip([plain, beside, with_pcr]) {
            add(name, 0, vec![packet]);
        }
    }
    let plain = Packet::new(OTHER, true, Load::Bytes(vec![0x10; 184]));
    let mut with_pcr = Packet::new(OTHER, false, Load::Bytes(vec![0x22; 100]));
    with_pcr.pcr = pcr;
    add("another listed packet", 0, vec![plain]);
    add("another listed packet with PCR", 0, vec![with_pcr]);
    kinds
}

/// One byte of the second packet changed.
fn changed(suite: &mut Suite, caller: &mut Caller, kind: &Kind, place: usize, mask: u8) {
    let name = kind.name;
    let mut packets = split(&segment(&kind.packets));
    let plain = verdict(&packets).expect("the kinds are right");
    let expected = one_more(&plain, kind.packets[kind.at].pid);
    let second = kind.at + 1;
    let mut copy = packets[kind.at].clone();
    copy[place] ^= mask;
    let extension = usize::from(copy[10] & 1) << 8 | usize::from(copy[11]);
    packets.insert(second, copy);
    if !(6..12).contains(&place) {
        let bytes = packets.concat();
        let label = format!("{name}, a byte changed: 24");
        let at_24 = refused_by(&verdict(&packets), 24);
        let more: Vec<&str> = at_24.then_some(label.as_str()).into_iter().collect();
        caller.check_wide_as(suite, &bytes, &more, |verdict| {
            // From the payload or what stands behind a PCR on, nothing else is looked at.
            let is_24 = refused_at(verdict, 24, second);
            is_24 || place < 12
        });
    } else if !kind.has_pcr() {
        let label = format!("{name}, bytes 6 to 11 changed: 24");
        refused(suite, caller, &packets, (24, second), &[&label]);
    } else if extension > 299 {
        let label = format!("{name}, PCR extension above 299");
        refused(suite, caller, &packets, (23, second), &[&label]);
    } else {
        let label = format!("{name}, PCR changed");
        accepted(suite, caller, &packets, &expected, &[&label]);
    }
}

/// Copies of every kind, the third too, and with one byte changed at every place.
fn copies_of_kinds(suite: &mut Suite, caller: &mut Caller) {
    for kind in kinds() {
        let mut packets = split(&segment(&kind.packets));
        let plain = verdict(&packets).expect("the kinds are right");
        let expected = one_more(&plain, kind.packets[kind.at].pid);
        let copy = packets[kind.at].clone();
        packets.insert(kind.at + 1, copy.clone());
        let label = format!("copy of {}", kind.name);
        accepted(suite, caller, &packets, &expected, &[&label]);
        packets.insert(kind.at + 1, copy);
        let label = format!("third copy of {}", kind.name);
        refused(suite, caller, &packets, (24, kind.at + 2), &[&label]);
        for place in 0..SIZE {
            for bit in 0..8 {
                changed(suite, caller, &kind, place, 1 << bit);
            }
            changed(suite, caller, &kind, place, 0xFF);
        }
    }
}

/// A packet with payload of a PID that passes all but perhaps 24, and can follow itself.
fn with_payload(pid: u16) -> Packet {
    match pid {
        0 => Packet::section(0, pat_body()),
        MAP => Packet::section(MAP, pmt_body(&entries())),
        AV1 => Packet::new(
            AV1,
            true,
            Load::Bytes(Pes::new(90, None, &unit(20)).bytes()),
        ),
        _ => Packet::new(pid, true, Load::Bytes(vec![0x5A; 100])),
    }
}

const WATCHED: [u16; 4] = [0, MAP, AV1, OTHER];

/// The head, its own packet of a PID with a counter, then packets of the PID: with payload or not,
/// with discontinuity or not, and a counter.
fn sequence(pid: u16, before: u8, steps: &[(bool, bool, u8)]) -> Vec<Bytes> {
    let mut packets = head();
    for packet in &mut packets {
        if packet.pid == pid {
            packet.counter = Some(before);
        }
    }
    for &(payload, discontinuity, counter) in steps {
        let mut packet = if payload {
            with_payload(pid)
        } else {
            Packet::new(pid, false, Load::Nothing)
        };
        if discontinuity {
            packet.flags = 0x80;
        }
        packet.counter = Some(counter);
        packets.push(packet);
    }
    split(&segment(&packets))
}

/// With payload or not, with discontinuity or not.
const PLAIN: (bool, bool) = (true, false);
const JUMP: (bool, bool) = (true, true);
const NONE: (bool, bool) = (false, false);
/// The steps, each with what its counter is more than the first's; and at which 24 comes, if any.
type Row = (&'static str, &'static [((bool, bool), u8)], Option<usize>);
const ROWS: &[Row] = &[
    (
        "without payload between",
        &[(PLAIN, 0), (NONE, 0), (PLAIN, 0)],
        Some(2),
    ),
    (
        "without payload between",
        &[(PLAIN, 0), (PLAIN, 0), (NONE, 0), (PLAIN, 0)],
        Some(3),
    ),
    (
        "the last packet without payload",
        &[(NONE, 15), (PLAIN, 15)],
        Some(1),
    ),
    ("discontinuity: both packets", &[(JUMP, 0), (JUMP, 0)], None),
    (
        "discontinuity: the second alone",
        &[(PLAIN, 0), (JUMP, 0)],
        None,
    ),
    (
        "discontinuity: the first alone",
        &[(JUMP, 0), (PLAIN, 0)],
        Some(1),
    ),
    (
        "discontinuity: three packets",
        &[(JUMP, 0), (JUMP, 0), (JUMP, 0), (JUMP, 0)],
        None,
    ),
    (
        "discontinuity: three packets",
        &[(PLAIN, 0), (PLAIN, 0), (JUMP, 0), (PLAIN, 1)],
        None,
    ),
    (
        "discontinuity: three packets",
        &[(PLAIN, 0), (JUMP, 0), (PLAIN, 0)],
        Some(2),
    ),
    (
        "after a copy: the next counter",
        &[(PLAIN, 0), (PLAIN, 0), (PLAIN, 1)],
        None,
    ),
    (
        "after a copy: without payload",
        &[(PLAIN, 0), (PLAIN, 0), (NONE, 0), (PLAIN, 1)],
        None,
    ),
    (
        "after a copy: without payload",
        &[(PLAIN, 0), (PLAIN, 0), (NONE, 1)],
        Some(2),
    ),
    (
        "after a copy: another counter",
        &[(PLAIN, 0), (PLAIN, 0), (PLAIN, 2)],
        Some(2),
    ),
    (
        "after a copy: another counter",
        &[(PLAIN, 0), (PLAIN, 0), (PLAIN, 15)],
        Some(2),
    ),
    (
        "after a copy: the next and its copy",
        &[(PLAIN, 0), (PLAIN, 0), (PLAIN, 1), (PLAIN, 1), (PLAIN, 2)],
        None,
    ),
    (
        "after a copy: the next and its copy",
        &[(PLAIN, 0), (PLAIN, 0), (PLAIN, 1), (PLAIN, 1), (PLAIN, 1)],
        Some(4),
    ),
    (
        "after a copy: an older packet",
        &[(PLAIN, 0), (PLAIN, 1), (PLAIN, 0)],
        Some(2),
    ),
];

/// What stands between two copies, before them and after them.
fn in_a_row(suite: &mut Suite, caller: &mut Caller) {
    for pid in WATCHED {
        for start in 0..16 {
            for (label, row, at) in ROWS {
                let steps: Vec<(bool, bool, u8)> = row
                    .iter()
                    .map(|&((payload, jump), by)| (payload, jump, (start + by) % 16))
                    .collect();
                let packets = sequence(pid, (start + 15) % 16, &steps);
                let mut more = vec![*label];
                if start == 15 {
                    more.push("the counter goes round");
                }
                if let Some(at) = at {
                    refused(suite, caller, &packets, (24, 3 + at), &more);
                } else {
                    let bytes = packets.concat();
                    caller.check_wide_as(suite, &bytes, &more, |verdict| verdict.is_ok());
                }
            }
        }
    }
}

/// The same packet before the section that names its PID and after it: the second is the first, and
/// can have a copy.
fn across_naming(suite: &mut Suite, caller: &mut Caller) {
    for (pid, at, label) in [
        (MAP, 0, "across naming: PAT"),
        (AV1, 1, "across naming: PMT, AV1"),
        (OTHER, 1, "across naming: PMT, other listed"),
    ] {
        let mut packets = head();
        if pid == MAP {
            packets.remove(1);
        }
        if pid == AV1 {
            packets.pop();
        }
        let mut packet = with_payload(pid);
        if pid == AV1 {
            packet.pcr = Some((3, 3));
        }
        packet.counter = Some(9);
        packets.insert(at, packet.clone());
        packets.insert(at + 2, packet);
        let mut packets = split(&segment(&packets));
        let plain = verdict(&packets);
        let bytes = packets.concat();
        caller.check_wide_as(suite, &bytes, &[label], |verdict| verdict.is_ok());
        let expected = one_more(&plain.expect("the first after naming"), pid);
        let copy = packets[at + 2].clone();
        packets.insert(at + 3, copy.clone());
        accepted(suite, caller, &packets, &expected, &[label]);
        packets.insert(at + 4, copy);
        refused(suite, caller, &packets, (24, at + 4), &[label]);
    }
}

/// A PCR in a copy counts for 31 as any other does.
fn clocks(suite: &mut Suite, caller: &mut Caller) {
    for (pcr_pid, order, label) in [
        (MAP, &[0, 1, 1][..], "a copy's PCR counts: PMT"),
        (0, &[0, 1, 0], "a copy's PCR counts: PAT"),
        (
            MAP,
            &[0, 1, 0, 1],
            "a copy's PCR counts: PMT after PAT and PMT",
        ),
    ] {
        let mut pat = Packet::section(0, pat_body());
        let body = compose::pmt(PROGRAM, pcr_pid, &[], &entries());
        let mut pmt = Packet::section(MAP, body);
        for packet in [&mut pat, &mut pmt] {
            packet.pcr = Some((7, 7));
            packet.counter = Some(4);
        }
        let mut packets = Vec::new();
        for &which in order {
            packets.push([&pat, &pmt][which].clone());
        }
        packets.extend(Pes::new(90, None, &unit(20)).packets(AV1));
        let mut packets = split(&segment(&packets));
        let bytes = packets.concat();
        caller.check_wide_as(suite, &bytes, &[label], |verdict| verdict.is_ok());
        // Without the copies there is none.
        packets.drain(2..order.len());
        refused(suite, caller, &packets, (31, 2), &[label]);
    }
}

/// 1,024 units, every packet sent twice.
fn many_units(suite: &mut Suite, caller: &mut Caller) {
    let mut packets = head();
    for at in 0..MOST_UNITS {
        packets.extend(Pes::new(at as u64, None, &unit(4)).packets(AV1));
    }
    let packets = split(&segment(&packets));
    let mut expected = verdict(&packets).expect("1,024 units");
    let mut doubled = Vec::new();
    for packet in packets {
        expected = one_more(&expected, pid_of(&packet));
        doubled.extend([packet.clone(), packet]);
    }
    let more = ["1,024 units, every packet copied", "exact rooms"];
    accepted(suite, caller, &doubled, &expected, &more);
}

/// The class of a PID whose counter is watched, once the map or all PIDs are named.
fn watched_class(made: &Made, pid: u16, (map, all): (bool, bool)) -> Option<Class> {
    if pid == 0 || map && pid == made.map_pid {
        Some(Class::Section)
    } else if all && pid == made.accepted.pid {
        Some(Class::Av1)
    } else if all && made.pids.contains(&pid) {
        Some(Class::OtherListed)
    } else {
        None
    }
}

/// A copy; of a PCR in it the base and the reserved bits may be any.
fn any_copy(random: &mut Random, packet: &[u8]) -> Bytes {
    let mut copy = packet.to_vec();
    if copy[3] & 0x20 != 0 && copy[4] >= 7 && copy[5] & 0x10 != 0 {
        for byte in &mut copy[6..10] {
            *byte = random.next() as u8;
        }
    }
    copy
}

/// Segments made at random, with copies put in.
fn made(suite: &mut Suite, caller: &mut Caller, random: &mut Random) {
    for round in 0..6000 {
        let (units, longest) = if round % 10 == 0 { (8, 600) } else { (3, 40) };
        let made = make(random, units, longest);
        let packets = split(&segment(&made.packets));
        let pat = packets
            .iter()
            .position(|packet| pid_of(packet) == 0 && has_payload(packet));
        let all = random.one_in(3);
        let mut expected = made.accepted.clone();
        let mut copied: Vec<Bytes> = Vec::new();
        let mut wrong = false;
        // Copies that wait for their place, before the next packet of their PID.
        let mut waiting: Vec<Bytes> = Vec::new();
        let mut named_map = false;
        let mut named_all = false;
        for (at, packet) in packets.iter().enumerate() {
            let pid = pid_of(packet);
            let (now, later) = waiting
                .into_iter()
                .partition(|copy| pid_of(copy) == pid || random.one_in(2));
            copied.extend::<Vec<Bytes>>(now);
            waiting = later;
            copied.push(packet.clone());
            let class = watched_class(&made, pid, (named_map, named_all));
            match class {
                Some(class)
                    if has_payload(packet)
                        && !has_discontinuity(packet)
                        && (all || random.one_in(4)) =>
                {
                    let mut copy = any_copy(random, packet);
                    if !all && random.one_in(30) {
                        let at = 12 + random.below(SIZE - 12);
                        copy[at] ^= 1 << random.below(8);
                        wrong = true;
                    }
                    expected.totals.add(class);
                    waiting.push(copy);
                }
                _ => {}
            }
            named_map |= Some(at) == pat;
            named_all |= named_map && pid == made.map_pid && has_payload(packet);
        }
        copied.extend(waiting);
        if wrong {
            let label = "made: copies, one wrong";
            caller.check_wide(suite, &copied.concat(), &[label]);
        } else {
            let label = ["made: copies of some", "made: copies of all"][usize::from(all)];
            accepted(suite, caller, &copied, &expected, &[label]);
        }
    }
}

/// Long runs over several PIDs with counters that stay, go on and jump.
fn runs(suite: &mut Suite, caller: &mut Caller, random: &mut Random) {
    for _ in 0..6000 {
        let mut packets = head();
        let mut last = [0u8; 4];
        packets[0].counter = Some(0);
        packets[1].counter = Some(0);
        packets[2].counter = Some(0);
        for _ in 0..random.below(30) {
            let which = random.below(4);
            let mut packet = with_payload(WATCHED[which]);
            if random.one_in(6) {
                packet = Packet::new(WATCHED[which], false, Load::Nothing);
            }
            if random.one_in(12) {
                packet.flags = 0x80;
            }
            let step = match random.below(40) {
                0 => random.below(16) as u8,
                1..=11 => 0,
                _ => u8::from(packet.has_payload()),
            };
            last[which] = (last[which] + step) % 16;
            packet.counter = Some(last[which]);
            packets.push(packet);
        }
        let bytes = segment(&packets);
        caller.check_wide(suite, &bytes, &["runs"]);
    }
}

fn run(suite: &mut Suite) {
    let mut caller = Caller::default();
    let mut random = Random::new(41);
    copies_of_base(suite, &mut caller);
    copies_of_kinds(suite, &mut caller);
    in_a_row(suite, &mut caller);
    across_naming(suite, &mut caller);
    clocks(suite, &mut caller);
    many_units(suite, &mut caller);
    made(suite, &mut caller, &mut random);
    runs(suite, &mut caller, &mut random);
}
