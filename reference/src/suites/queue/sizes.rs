//! Sends at every size around a packet's end, marked and not, with DTS and without, and first
//! frames at every place around the end of the first packet.

use crate::helpers::queue::{CHANNEL, Session, any_channel, any_unit, plain};
use crate::kit::{Definition, Random, Suite, labels};
use reference::packet::SIZE;
use reference::queue::Queued;
use reference::queue::send::pes;

pub const SUITE: Definition = Definition {
    name: "send-sizes",
    labels: || {
        let mut list = labels(&[
            "sent",
            "accepted",
            "several units",
            "the mark: random_access_indicator 1",
            "no mark, a packet without adaptation field",
            "priority: the start code lies in the first packet",
            "priority: its first byte is the packet's last",
            "no priority: it begins with the next packet",
            "no priority: it begins later",
            "first frame: type 3",
            "first frame: type 6",
            "first frame: shown again",
            "first frame: with extension and size",
            "bytes alike before the first frame",
        ]);
        for mark in ["marked", "not marked"] {
            for bytes in [181, 182, 183, 184, 185, 366, 367, 368, 369] {
                list.push(format!("{mark}, a PES of {bytes} bytes"));
            }
        }
        list
    },
    run,
};

/// Sends one unit; answers its first PES packet.
fn one(suite: &mut Suite, session: &mut Session, unit: &Queued, more: &[&str]) -> Vec<u8> {
    session.add(suite, unit, &[]);
    let sent = session.send_wide(suite, &CHANNEL, more);
    let bytes = sent.expect("it can be sent").bytes;
    bytes[3 * SIZE..4 * SIZE].to_vec()
}

/// A unit of some OBUs before the frame, which begins at a place of it.
fn frame_at(place: usize, frame: &[u8]) -> Vec<u8> {
    let mut unit = vec![0, 0, 1, 0x78];
    unit.resize(place, 0x80);
    unit.extend([0, 0, 1]);
    unit.extend_from_slice(frame);
    unit
}

/// What a first packet's adaptation field says, and what it must say by the place of the frame.
fn priority(suite: &mut Suite, packet: &[u8], place: usize) {
    let label = match place {
        181 => "priority: its first byte is the packet's last",
        182 => "no priority: it begins with the next packet",
        _ if place < 181 => "priority: the start code lies in the first packet",
        _ => "no priority: it begins later",
    };
    let flags = if place < 182 { 0x60 } else { 0x40 };
    let passed = packet[3] & 0x30 == 0x30 && packet[4] >= 1 && packet[5] == flags;
    suite.case(&[label], passed, || {
        format!("the frame begins at {place}, the packet is {packet:02X?}")
    });
}

fn run(suite: &mut Suite) {
    let mut random = Random::new(503);
    let mut session = Session::new(100_000);
    lengths(suite, &mut session);
    frames(suite, &mut session);
    // Several units of any lengths.
    for _ in 0..1500 {
        for _ in 0..random.below(9) {
            let longest = random.pick(&[10, 50, 200, 1000]);
            let unit = any_unit(&mut random, longest);
            session.add(suite, &unit, &[]);
        }
        let channel = any_channel(&mut random);
        session.send_wide(suite, &channel, &["several units"]);
    }
}

/// Every length up to four packets.
fn lengths(suite: &mut Suite, session: &mut Session) {
    for length in 4..184 * 4 + 4 {
        for marked in [false, true] {
            for dts in [90_000, 89_000] {
                let unit = Queued {
                    bytes: plain(length),
                    pts: 90_000,
                    dts,
                    marked,
                };
                let mark = if marked { "marked" } else { "not marked" };
                let label = format!("{mark}, a PES of {} bytes", pes(&unit).len());
                let packet = one(suite, session, &unit, &[&label]);
                if marked {
                    let label = "the mark: random_access_indicator 1";
                    let passed = packet[3] & 0x30 == 0x30 && packet[5] & 0x40 != 0;
                    suite.case(&[label], passed, || format!("{packet:02X?}"));
                } else if pes(&unit).len() >= 184 {
                    let label = "no mark, a packet without adaptation field";
                    let passed = packet[3] & 0x30 == 0x10;
                    suite.case(&[label], passed, || format!("{packet:02X?}"));
                }
            }
        }
    }
}

/// The frame at every place, of every kind; what stands before it looks like frames.
fn frames(suite: &mut Suite, session: &mut Session) {
    let alike = [0x30, 0x18, 0x00, 0x01, 0x30, 0x1A, 0x32];
    for place in 4..220 {
        let kinds: [(&[u8], &str); 4] = [
            (&[0x18, 0x00, 0x55, 0, 0, 1, 0x20], "first frame: type 3"),
            (&[0x30, 0x55], "first frame: type 6"),
            (&[0x18, 0x80], "first frame: shown again"),
            (
                &[0x36, 0x08, 0x01, 0x55],
                "first frame: with extension and size",
            ),
        ];
        for (frame, label) in kinds {
            for dts in [5, 6] {
                let mut unit = Queued {
                    bytes: frame_at(place, frame),
                    pts: 5,
                    dts,
                    marked: true,
                };
                let header = if dts == 5 { 14 } else { 19 };
                let packet = one(suite, session, &unit, &[label]);
                priority(suite, &packet, header + place);
                for at in 4..place - 2 {
                    unit.bytes[at] = alike[at % alike.len()];
                }
                let labels = [label, "bytes alike before the first frame"];
                let packet = one(suite, session, &unit, &labels);
                priority(suite, &packet, header + place);
                unit.bytes.resize(unit.bytes.len().max(400), 0x66);
                if frame[0] == 0x30 {
                    let packet = one(suite, session, &unit, &labels);
                    priority(suite, &packet, header + place);
                }
            }
        }
    }
}
