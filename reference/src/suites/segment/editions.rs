//! The check with an edition: every fault of a segment in both, the registrations, PES headers with
//! and without times, and unknown editions.

use crate::helpers::segment::draft::{draft_bytes, draft_of, draft_packets};
use crate::helpers::segment::faults::{Base, PMT, PMT_AGAIN, base};
use crate::helpers::segment::make::make;
use crate::helpers::segment::set_up::{
    AV1, MAP, OTHER, SECOND, VIDEO, entries, head_of, pat_body, pmt_body, unit,
};
use crate::helpers::segment::{
    Caller, Verdict, exact, faults as segment_faults, refused_at, refused_by, wide,
};
use crate::helpers::unit::reading_conditions;
use crate::kit::{Definition, Random, Suite, labels};
use reference::compose::{Entry, Load, Packet, Pes, repair_crc, segment};
use reference::descriptor::REGISTRATION;
use reference::edition::{DRAFT_REGISTRATION, NO_TIME};
use reference::packet::SIZE;
use reference::segment::{MOST_PACKETS, Unit};

pub const SUITE: Definition = Definition {
    name: "segment-editions",
    labels: || {
        let mut list = labels(&[
            "44: an unknown edition",
            "44 before 20",
            "44: nothing else wrong",
            "44: no rooms",
            "20 in an edition",
            "current: accepted",
            "draft: accepted",
            "draft recording under current",
            "current recording under draft",
            "draft: 30 is accepted",
            "draft: 30 of another unit",
            "draft: tag 80 is not interpreted",
            "no registration: both editions alike",
            "entries: both accept",
            "entries: current alone accepts",
            "entries: draft alone accepts",
            "entries: none accepts",
            "draft: no times, length byte 0",
            "draft: no times, length byte 255",
            "draft: no times, header not whole",
            "draft: a time as carried",
            "draft: flags 01",
            "draft: short payload",
            "draft: byte changed",
            "made: draft",
            "made: draft, no times in some",
            "made: draft, no times in all",
            "made: current",
            "damaged",
        ]);
        for condition in segment_faults::conditions() {
            list.push(format!("current: {condition}"));
            // These are not of the draft.
            if !condition.starts_with("30") && !condition.contains("video descriptor") {
                list.push(format!("draft: {condition}"));
            }
        }
        for condition in ["6: tile list", "9: no start code at the head"] {
            assert!(reading_conditions().contains(&condition));
            list.push(format!("draft: {condition}"));
        }
        list
    },
    run,
};

const CURRENT: u64 = 0;
const DRAFT: u64 = 1;

fn name(edition: u64) -> &'static str {
    match edition {
        CURRENT => "current",
        DRAFT => "draft",
        _ => "unknown",
    }
}

/// One check, under the label of its verdict; under draft it is never 30.
fn one(
    suite: &mut Suite,
    caller: &mut Caller,
    edition: u64,
    bytes: &[u8],
    more: &[&str],
    intended: impl FnOnce(&Verdict) -> bool,
) {
    let rooms = wide(bytes);
    let verdict = reference::segment::check_edition(edition, bytes, rooms);
    let label = match &verdict {
        Ok(_) => format!("{}: accepted", name(edition)),
        Err(refusal) => format!("{}: {}", name(edition), refusal.condition),
    };
    let more = [more, &[&label]].concat();
    caller.check_edition(suite, edition, bytes, rooms, &more, |verdict| {
        let is_30 = refused_by(verdict, 30);
        intended(verdict) && !(is_30 && edition == DRAFT)
    });
}

/// Every fault of the base, in a recording of each edition.
fn faults(suite: &mut Suite, caller: &mut Caller) {
    for fault in segment_faults::all() {
        for edition in [CURRENT, DRAFT] {
            let mut broken = base();
            (fault.apply)(&mut broken);
            if edition == DRAFT {
                broken = Base {
                    packets: draft_packets(&broken.packets),
                    ..broken
                };
            }
            let of_tag = fault.condition.contains("video descriptor");
            if of_tag {
                // The later PMT is equal.
                broken.packets[PMT_AGAIN].load = broken.packets[PMT].load.clone();
            }
            let bytes = broken.bytes();
            let rooms = broken.rooms_for(&bytes);
            let mut more = vec![format!("{}: {}", name(edition), fault.condition)];
            if edition == DRAFT && fault.number == 30 {
                more = vec!["draft: 30 is accepted".to_string()];
            } else if edition == DRAFT && of_tag {
                more = vec!["draft: tag 80 is not interpreted".to_string()];
            }
            let more: Vec<&str> = more.iter().map(|label| label.as_str()).collect();
            caller.check_edition(suite, edition, &bytes, rooms, &more, |verdict| {
                match fault.number {
                    // The header's length byte decides where the unit begins.
                    30 if edition == DRAFT => !refused_at(verdict, 30, fault.place),
                    28 if edition == DRAFT && of_tag => verdict.is_ok(),
                    number => refused_at(verdict, number, fault.place),
                }
            });
        }
    }
    // A recording of the other edition has no AV1 entry.
    let current = base();
    let draft = Base::new(draft_packets(&current.packets));
    for (edition, base, label) in [
        (CURRENT, &draft, "draft recording under current"),
        (DRAFT, &current, "current recording under draft"),
    ] {
        one(suite, caller, edition, &base.bytes(), &[label], |verdict| {
            refused_at(verdict, 28, PMT)
        });
    }
    for (edition, base) in [(CURRENT, &current), (DRAFT, &draft)] {
        one(suite, caller, edition, &base.bytes(), &[], |verdict| {
            verdict.is_ok()
        });
    }
}

/// Where no registration of either kind stands, both editions give the same.
fn no_registration(suite: &mut Suite, caller: &mut Caller) {
    let more = ["no registration: both editions alike"];
    for fault in segment_faults::all() {
        let mut broken = base();
        (fault.apply)(&mut broken);
        for packet in &mut broken.packets {
            if let Load::Section(section) = &mut packet.load {
                for at in 0..section.body.len() {
                    if section.body[at..].starts_with(&REGISTRATION) {
                        section.body[at] = 0x0F;
                    }
                }
            }
        }
        let bytes = broken.bytes();
        let plain = reference::segment::check_edition(CURRENT, &bytes, wide(&bytes));
        for edition in [CURRENT, DRAFT] {
            one(suite, caller, edition, &bytes, &more, |verdict| {
                *verdict == plain && verdict.is_err()
            });
        }
    }
}

/// Entries with every list of up to two descriptors, of each kind: which edition accepts.
fn registrations(suite: &mut Suite, caller: &mut Caller) {
    let descriptors: [&[u8]; 5] = [
        &REGISTRATION,
        &DRAFT_REGISTRATION,
        &VIDEO,
        &[0x80, 0x01, 0x55],
        &[0x05, 0x05, 0x41, 0x56, 0x31, 0x20, 0x00],
    ];
    let mut loops: Vec<Vec<u8>> = vec![vec![]];
    for first in descriptors {
        loops.push(first.to_vec());
        for second in descriptors {
            loops.push([first, second].concat());
        }
    }
    let mut list = Vec::new();
    for stream_type in [0x06, 0x0F] {
        for descriptors in &loops {
            list.push(Entry::new(stream_type, AV1, descriptors));
        }
    }
    for first in &list {
        for second in &list {
            let mut second = second.clone();
            second.pid = OTHER;
            let entries = [first.clone(), second, Entry::new(0x06, SECOND, &[])];
            let bytes = segment(&[
                Packet::section(0, pat_body()),
                Packet::section(MAP, pmt_body(&entries)),
            ]);
            let accepts = [CURRENT, DRAFT].map(|edition| {
                reference::segment::check_edition(edition, &bytes, wide(&bytes)).is_ok()
            });
            let label = match accepts {
                [true, true] => "entries: both accept",
                [true, false] => "entries: current alone accepts",
                [false, true] => "entries: draft alone accepts",
                [false, false] => "entries: none accepts",
            };
            for edition in [CURRENT, DRAFT] {
                one(suite, caller, edition, &bytes, &[label], |_| true);
            }
        }
    }
}

/// A recording of the draft with one PES in these payloads, and one more behind it.
fn around(payloads: &[&[u8]]) -> Vec<u8> {
    let mut packets = head_of(draft_bytes(&pmt_body(&entries())));
    for (index, payload) in payloads.iter().enumerate() {
        packets.push(Packet::new(AV1, index == 0, Load::Bytes(payload.to_vec())));
    }
    packets.extend(Pes::new(180, Some(90), &unit(20)).packets(AV1));
    segment(&packets)
}

/// A PES without times: a header with this length byte, and a unit.
fn without_times(length: u8, unit: &[u8]) -> Vec<u8> {
    let mut bytes = vec![0, 0, 1, 0xBD, 0, 0, 0x84, 0x00, length];
    bytes.extend((0..length).map(|at| at ^ 0x5A));
    bytes.extend(unit);
    bytes
}

/// PES headers under draft: without times, with all values of each byte, short, and with times.
fn headers(suite: &mut Suite, caller: &mut Caller) {
    length_bytes(suite, caller);
    changed_headers(suite, caller);
    times(suite, caller);
}

/// No times, and every length byte.
fn length_bytes(suite: &mut Suite, caller: &mut Caller) {
    for length in 0..=255 {
        let whole = without_times(length, &unit(40));
        for first in [60, 120, 184] {
            for with_length in [false, true] {
                let mut bytes = whole.clone();
                if with_length {
                    let after = (bytes.len() - 6) as u16;
                    bytes[4..6].copy_from_slice(&after.to_be_bytes());
                }
                let (first, rest) = bytes.split_at(first.min(bytes.len()));
                let mut payloads = vec![first];
                payloads.extend(rest.chunks(184));
                let label = match length {
                    _ if 9 + usize::from(length) > first.len() => {
                        "draft: no times, header not whole"
                    }
                    0 => "draft: no times, length byte 0",
                    _ => "draft: no times",
                };
                one(
                    suite,
                    caller,
                    DRAFT,
                    &around(&payloads),
                    &[label],
                    |verdict| {
                        if 9 + usize::from(length) > first.len() {
                            return refused_at(verdict, 29, 3);
                        }
                        let expected = Unit {
                            bytes: unit(40),
                            pts: NO_TIME,
                            dts: NO_TIME,
                        };
                        verdict.as_ref().map_or(false, |accepted| {
                            let other = &accepted.units[1];
                            accepted.units[0] == expected && (other.pts, other.dts) == (180, 90)
                        })
                    },
                );
            }
        }
    }
    // 255 can not be whole in a packet; the label says that it was tried.
    let bytes = without_times(255, &unit(40));
    let label = "draft: no times, length byte 255";
    one(
        suite,
        caller,
        DRAFT,
        &around(&[&bytes[..184], &bytes[184..]]),
        &[label],
        |verdict| refused_at(verdict, 29, 3),
    );
}

/// Every byte of the header with every value; short payloads.
fn changed_headers(suite: &mut Suite, caller: &mut Caller) {
    let mut stuffed = Pes::new(0x1_FFFF_FFFF, Some(0), &unit(20));
    stuffed.stuffing = 4;
    let good = [
        without_times(0, &unit(20)),
        without_times(7, &unit(20)),
        Pes::new(0x1_2345_6789, None, &unit(20)).bytes(),
        stuffed.bytes(),
    ];
    for good in good {
        for at in 0..30 {
            for value in 0..=255 {
                let mut bytes = good.clone();
                bytes[at] = value;
                let label = match (at, value) {
                    (7, 0x40..=0x7F) => "draft: flags 01",
                    _ => "draft: byte changed",
                };
                one(
                    suite,
                    caller,
                    DRAFT,
                    &around(&[&bytes]),
                    &[label],
                    |verdict| label != "draft: flags 01" || refused_at(verdict, 29, 3),
                );
            }
        }
        for total in 1..=24 {
            for length in 0..=16 {
                for flags in [0x00, 0x3F, 0x40, 0x80, 0xC0] {
                    let mut bytes = good.clone();
                    bytes[4..6].fill(0);
                    bytes[7] = flags;
                    bytes[8] = length;
                    bytes.truncate(total);
                    let label = ["draft: short payload"];
                    one(suite, caller, DRAFT, &around(&[&bytes]), &label, |_| true);
                    let two = around(&[&bytes, &unit(9)]);
                    one(suite, caller, DRAFT, &two, &label, |_| true);
                }
            }
        }
    }
}

/// Times that are there are as under current, the greatest too; and a unit that is wrong behind a
/// header without times.
fn times(suite: &mut Suite, caller: &mut Caller) {
    for (pts, dts) in [(0, None), (0x1_FFFF_FFFF, None), (5, Some(0x1_FFFF_FFFF))] {
        let bytes = around(&[&Pes::new(pts, dts, &unit(9)).bytes()]);
        let label = ["draft: a time as carried"];
        one(suite, caller, DRAFT, &bytes, &label, |verdict| {
            verdict.as_ref().map_or(false, |accepted| {
                let first = &accepted.units[0];
                (first.pts, first.dts) == (pts, dts.unwrap_or(pts))
            })
        });
    }
    // 30 under current at a later unit, and a unit that is wrong behind a header without times.
    for content in [&unit(9)[..], &[0, 0, 1, 0x40], &[0x30]] {
        let bytes = around(&[&without_times(3, content)]);
        let label = ["draft: 30 of another unit"];
        one(suite, caller, DRAFT, &bytes, &label, |_| true);
    }
}

/// Editions that are unknown, beside segments of every kind.
fn unknown(suite: &mut Suite, caller: &mut Caller) {
    let right = base().bytes();
    let mut wrong = right.clone();
    wrong[0] = 0;
    let segments: [(&[u8], bool); 7] = [
        (&right, false),
        (&draft_bytes(&right), false),
        (&wrong, false),
        (&[], true),
        (&right[1..], true),
        (&right[..100], true),
        (&vec![0x47; (MOST_PACKETS + 1) * SIZE], true),
    ];
    for (bytes, has_20) in segments {
        let mut rooms = wide(bytes);
        rooms.bytes = rooms.bytes.min(10_000);
        for edition in [
            2,
            3,
            255,
            256,
            257,
            1 << 32,
            (1 << 32) + 1,
            1 << 63,
            u64::MAX,
        ] {
            let label = if has_20 {
                "44 before 20"
            } else {
                "44: nothing else wrong"
            };
            let none = exact(&[]);
            for (rooms, more) in [(rooms, "44"), (none, "44: no rooms")] {
                let more = [label, more, "44: an unknown edition"];
                caller.check_edition(suite, edition, bytes, rooms, &more, |verdict| {
                    refused_at(verdict, 44, 0)
                });
            }
        }
        if has_20 {
            for edition in [CURRENT, DRAFT] {
                let more = ["20 in an edition"];
                caller.check_edition(suite, edition, bytes, rooms, &more, |verdict| {
                    refused_at(verdict, 20, 0)
                });
            }
        }
    }
}

/// Segments made at random, in both editions, right and damaged.
fn made(suite: &mut Suite, caller: &mut Caller, random: &mut Random) {
    for round in 0..6000 {
        let (units, longest) = if round % 10 == 0 { (8, 600) } else { (3, 40) };
        let current = make(random, units, longest);
        let taken = round % 3;
        let label = [
            "made: draft",
            "made: draft, no times in some",
            "made: draft, no times in all",
        ][taken];
        let draft = draft_of(random, &current, taken);
        for (edition, made, label) in [(CURRENT, &current, "made: current"), (DRAFT, &draft, label)]
        {
            let mut bytes = segment(&made.packets);
            one(suite, caller, edition, &bytes, &[label], |verdict| {
                verdict.as_ref() == Ok(&made.accepted)
            });
            let rooms = exact(&made.accepted.units);
            caller.check_edition(suite, edition, &bytes, rooms, &[label], |verdict| {
                verdict.as_ref() == Ok(&made.accepted)
            });
            one(suite, caller, 1 - edition, &bytes, &[], |verdict| {
                refused_by(verdict, 28)
            });
            // A few bytes changed, sections with their CRC repaired.
            for _ in 0..1 + random.below(3) {
                let packet = random.below(bytes.len() / SIZE) * SIZE;
                let most = random.pick(&[12, 40, SIZE]);
                let at = packet + random.below(most);
                bytes[at] ^= 1 << random.below(8);
                let pid = u16::from_be_bytes([bytes[packet + 1], bytes[packet + 2]]) & 0x1FFF;
                if pid == 0 || pid == made.map_pid {
                    repair_crc(&mut bytes[packet..packet + SIZE]);
                }
            }
            for edition in [CURRENT, DRAFT] {
                one(suite, caller, edition, &bytes, &["damaged"], |_| true);
            }
        }
    }
}

fn run(suite: &mut Suite) {
    let mut caller = Caller::default();
    let mut random = Random::new(51);
    faults(suite, &mut caller);
    no_registration(suite, &mut caller);
    registrations(suite, &mut caller);
    headers(suite, &mut caller);
    unknown(suite, &mut caller);
    made(suite, &mut caller, &mut random);
}
