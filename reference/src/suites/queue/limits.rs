//! PES lengths around 65,535, the longest units, and 65,535 packets and one more.

use crate::helpers::queue::{CHANNEL, Session, VIDEO, plain, queued};
use crate::kit::{Definition, Suite, labels};
use reference::packet::SIZE;
use reference::queue::Queued;
use reference::queue::send::pes;
use reference::unit::MOST_CARRIED;

pub const SUITE: Definition = Definition {
    name: "send-limits",
    labels: || {
        labels(&[
            "sent",
            "accepted",
            "a PES length of 65,534",
            "a PES length of 65,535",
            "a PES length of 65,536, written as 0",
            "a PES length above, written as 0",
            "PES length 65,535, marked",
            "PES length 65,535, with DTS",
            "the longest unit",
            "65,534 packets",
            "65,535 packets",
            "65,536 packets, by a byte",
            "65,536 packets, by a mark",
            "65,536 packets, by a DTS",
            "more packets",
            "53: more than 65,535 packets",
            "53 before 8",
            "52 before 53",
            "52 before 53 and 8",
            "8: output too short",
            "one byte short of 65,535 packets",
        ])
    },
    run,
};

/// A unit of so many carried bytes, rich in zeros, for more than the OBUs' bytes may be together.
fn long(length: usize) -> Vec<u8> {
    let zeros = 1_000_000;
    let mut unit = vec![0, 0, 1, 0x30];
    for index in 0..zeros {
        if index > 0 && index % 2 == 0 {
            unit.push(3);
        }
        unit.push(0);
    }
    assert!(unit.len() <= length);
    unit.resize(length, 0xAA);
    unit
}

/// The length of a unit without mark and DTS that fills so many packets.
fn filling(packets: usize) -> usize {
    184 * packets - 14
}

/// A change to a unit.
type Change = fn(&mut Queued);

fn pes_lengths(suite: &mut Suite) {
    let mut session = Session::new(100_000);
    for dts in [7, 8] {
        for marked in [false, true] {
            let header = if dts == 7 { 8 } else { 13 };
            for length in 65_530..=65_545 {
                let unit = Queued {
                    bytes: plain(length - header),
                    pts: 7,
                    dts,
                    marked,
                };
                let written = usize::from(u16::from_be_bytes([pes(&unit)[4], pes(&unit)[5]]));
                let right = written == if length > 65_535 { 0 } else { length };
                let label = match length {
                    65_534 => "a PES length of 65,534",
                    65_535 => "a PES length of 65,535",
                    65_536 => "a PES length of 65,536, written as 0",
                    _ if length > 65_536 => "a PES length above, written as 0",
                    _ => "a PES length below",
                };
                suite.case(&[label], right, || format!("{length} is written {written}"));
                let mut labels = vec![label];
                if length == 65_535 && marked {
                    labels.push("PES length 65,535, marked");
                }
                if length == 65_535 && dts == 8 {
                    labels.push("PES length 65,535, with DTS");
                }
                session.add(suite, &unit, &[]);
                session.send_wide(suite, &CHANNEL, &labels);
            }
        }
    }
}

/// A queue of eight units that fill so many packets, at most 65,535 with the first three.
fn large(suite: &mut Suite, packets: usize, change: impl Fn(&mut Queued)) -> Session {
    let mut session = Session::new(12_300_000);
    let mut left = packets - 3;
    for index in 0..8 {
        let own = left / (8 - index);
        left -= own;
        let mut unit = queued(long(filling(own)));
        if index == 4 {
            change(&mut unit);
        }
        session.add(suite, &unit, &[]);
    }
    session
}

fn run(suite: &mut Suite) {
    pes_lengths(suite);

    // The longest that reading accepts, where two bytes of three are zeros.
    let mut session = Session::new(2_000_000);
    let mut unit = vec![0, 0, 1, 0x30];
    for index in 0..1_048_575 {
        if index > 0 && index % 2 == 0 {
            unit.push(3);
        }
        unit.push(0);
    }
    assert!(unit.len() <= MOST_CARRIED);
    for marked in [false, true] {
        let unit = Queued {
            marked,
            ..queued(unit.clone())
        };
        session.add(suite, &unit, &[]);
        session.send_wide(suite, &CHANNEL, &["the longest unit"]);
    }

    let room = 65_536 * SIZE;
    let mut session = large(suite, 65_534, |_| {});
    session.send(suite, &CHANNEL, &VIDEO, room, &["65,534 packets"]);
    let mut session = large(suite, 65_535, |_| {});
    let labels = ["one byte short of 65,535 packets"];
    session.send(suite, &CHANNEL, &VIDEO, 65_535 * SIZE - 1, &labels);
    session.send(suite, &CHANNEL, &VIDEO, 65_535 * SIZE, &["65,535 packets"]);

    let changes: [(&str, Change); 4] = [
        ("65,536 packets, by a byte", |unit| unit.bytes.push(0xAA)),
        ("65,536 packets, by a mark", |unit| unit.marked = true),
        ("65,536 packets, by a DTS", |unit| unit.dts = 1),
        ("more packets", |unit| unit.bytes.resize(1_570_000, 0xAA)),
    ];
    for (label, change) in changes {
        let mut session = large(suite, 65_535, change);
        session.send(suite, &CHANNEL, &VIDEO, room, &[label]);
        session.send(suite, &CHANNEL, &VIDEO, 0, &["53 before 8"]);
        let mut channel = CHANNEL;
        channel.program = 0;
        session.send(suite, &channel, &VIDEO, room, &["52 before 53"]);
        session.send(suite, &channel, &[], 100, &["52 before 53 and 8"]);
        // With a unit less it goes.
        session.drop_oldest(suite, &[]);
        session.send(suite, &CHANNEL, &VIDEO, room, &["sent with a unit less"]);
    }
}
