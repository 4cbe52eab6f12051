//! Counters: every last counter with every next one, with and without payload and discontinuity, on
//! every kind of PID, and from where they count.

use crate::helpers::segment::Caller;
use crate::helpers::segment::set_up::{
    AV1, MAP, OTHER, SECOND, UNLISTED, entries, head, pat_body, pmt_body, unit,
};
use crate::kit::{Definition, Random, Suite, labels};
use reference::compose::{Load, Packet, Pes, segment};
use reference::packet::NULL;
use reference::segment::CONDITIONS_24;

pub const SUITE: Definition = Definition {
    name: "segment-counters",
    labels: || labels(&[CONDITIONS_24, LABELS].concat()),
    run,
};

const LABELS: &[&str] = &[
    "accepted",
    "discontinuity, with payload",
    "discontinuity, without payload",
    "field of no flags",
    "the first packet sets it",
    "before the PAT",
    "before the PMT",
    "not watched",
    "repeated sections do not start anew",
    "runs",
];

/// PAT, PMT and PCR, with counter 0; then all is listed.
fn counted_head() -> Vec<Packet> {
    let mut packets = head();
    packets[2].counter = Some(0);
    packets
}

/// How a packet stands: with payload or not, and what its adaptation field says.
#[derive(Clone, Copy, PartialEq, Eq)]
enum Kind {
    Payload,
    /// With an adaptation field of length 0 behind which a set bit would be a discontinuity.
    PayloadNoFlags,
    PayloadDiscontinuity,
    Nothing,
    NothingDiscontinuity,
}

const KINDS: [Kind; 5] = [
    Kind::Payload,
    Kind::PayloadNoFlags,
    Kind::PayloadDiscontinuity,
    Kind::Nothing,
    Kind::NothingDiscontinuity,
];

/// A packet of a PID that passes all but perhaps 24.
fn packet(pid: u16, kind: Kind, counter: u8) -> Packet {
    let load = match (kind, pid) {
        (Kind::Nothing | Kind::NothingDiscontinuity, _) => Load::Nothing,
        (_, 0) => Packet::section(0, pat_body()).load,
        (_, MAP) => Packet::section(MAP, pmt_body(&entries())).load,
        (_, AV1) => Load::Bytes(Pes::new(90, None, &unit(20)).bytes()),
        (Kind::PayloadNoFlags, _) => Load::Bytes(vec![0xFF; 183]),
        _ => Load::Bytes(vec![0xFF; 100]),
    };
    let mut packet = Packet::new(pid, true, load);
    match kind {
        Kind::PayloadDiscontinuity | Kind::NothingDiscontinuity => packet.flags = 0x80,
        Kind::PayloadNoFlags if pid == 0 || pid == MAP => packet.field = 1,
        Kind::PayloadNoFlags if pid == AV1 => {
            let mut pes = Pes::new(90, None, &unit(20));
            pes.unit.resize(183 - pes.header_size(), 0xFF);
            packet.load = Load::Bytes(pes.bytes());
        }
        _ => {}
    }
    packet.counter = Some(counter);
    packet
}

fn run(suite: &mut Suite) {
    let mut caller = Caller::default();
    let mut random = Random::new(31);
    steps(suite, &mut caller, &mut random);
    first_packets(suite, &mut caller, &mut random);
    repeated_sections(suite, &mut caller);
    runs(suite, &mut caller, &mut random);
}

/// Every last counter with every next one, and one more step.
fn steps(suite: &mut Suite, caller: &mut Caller, random: &mut Random) {
    for pid in [0, MAP, AV1, OTHER, SECOND, UNLISTED, NULL] {
        for last in 0..16 {
            for next in 0..16 {
                for kind in KINDS {
                    let mut packets = counted_head();
                    // The section's own packet gave the last counter of its PID, or the clock did.
                    let first = match pid {
                        0 => Some(0),
                        MAP => Some(1),
                        AV1 => Some(2),
                        _ => None,
                    };
                    match first {
                        Some(at) => packets[at].counter = Some(last),
                        None => packets.push(packet(pid, Kind::Payload, last)),
                    }
                    packets.push(packet(pid, kind, next));
                    let label = match (pid, kind) {
                        (UNLISTED | NULL, _) => "not watched",
                        (_, Kind::PayloadDiscontinuity) => "discontinuity, with payload",
                        (_, Kind::NothingDiscontinuity) => "discontinuity, without payload",
                        (_, Kind::PayloadNoFlags) => "field of no flags",
                        _ => "a step",
                    };
                    let bytes = segment(&packets);
                    caller.check_wide(suite, &bytes, &[label]);
                    // And one more step, from what has become the last counter.
                    for more in [next, (next + 1) % 16, (last + 1) % 16, (last + 2) % 16] {
                        packets.push(packet(pid, random.pick(&KINDS), more));
                        let bytes = segment(&packets);
                        caller.check_wide(suite, &bytes, &[label]);
                        packets.pop();
                    }
                }
            }
        }
    }
}

/// The first packet of a PID sets it, with payload or without; those before the section that
/// names it do not count.
fn first_packets(suite: &mut Suite, caller: &mut Caller, random: &mut Random) {
    for pid in [MAP, AV1, OTHER] {
        for earlier in 0..16 {
            for first in 0..16 {
                for kind in KINDS {
                    let mut packets = counted_head();
                    let (at, label) = if pid == MAP {
                        (0, "before the PAT")
                    } else {
                        (1, "before the PMT")
                    };
                    packets.insert(at, packet(pid, random.pick(&KINDS), earlier));
                    if pid == MAP {
                        packets[2] = packet(pid, kind, first);
                        let next = if packets[2].has_payload() {
                            first + 1
                        } else {
                            first
                        };
                        if !packets[2].has_payload() {
                            packets.insert(3, packet(pid, Kind::Payload, (next + 1) % 16));
                        }
                    } else {
                        packets.pop();
                        packets.push(packet(OTHER, Kind::Nothing, 5));
                        if pid == AV1 {
                            let mut clock = packet(AV1, kind, first);
                            if clock.has_payload() {
                                clock.load = Load::Bytes(Pes::new(7, None, &unit(9)).bytes());
                            }
                            clock.pcr = Some((5, 5));
                            clock.field = 0;
                            packets.push(clock);
                        } else {
                            packets.pop();
                            packets.push(packet(OTHER, kind, first));
                        }
                    }
                    let labels = [label, "the first packet sets it"];
                    let bytes = segment(&packets);
                    caller.check_wide(suite, &bytes, &labels);
                    packets.push(packet(pid, random.pick(&KINDS), (first + 1) % 16));
                    let bytes = segment(&packets);
                    caller.check_wide(suite, &bytes, &labels);
                }
            }
        }
    }
}

/// Repeated sections do not start counters anew.
fn repeated_sections(suite: &mut Suite, caller: &mut Caller) {
    for pid in [0, MAP, AV1, OTHER] {
        for section in [0, MAP] {
            for next in 0..16 {
                let mut packets = counted_head();
                packets.push(packet(pid, Kind::NothingDiscontinuity, 3));
                packets.push(packet(section, Kind::PayloadDiscontinuity, 9));
                packets.push(packet(pid, Kind::Payload, next));
                let bytes = segment(&packets);
                let label = "repeated sections do not start anew";
                caller.check_wide(suite, &bytes, &[label]);
            }
        }
    }
}

/// Long runs over several PIDs, mostly right.
fn runs(suite: &mut Suite, caller: &mut Caller, random: &mut Random) {
    for _ in 0..4000 {
        let mut packets = counted_head();
        let mut last = [0u8; 4];
        packets[0].counter = Some(0);
        packets[1].counter = Some(0);
        packets.push(packet(OTHER, Kind::Payload, 0));
        for _ in 0..random.below(40) {
            let which = random.below(4);
            let kind = random.pick(&KINDS);
            let mut one = packet([0, MAP, AV1, OTHER][which], kind, 0);
            let right = (last[which] + u8::from(one.has_payload())) % 16;
            let jump = matches!(
                kind,
                Kind::PayloadDiscontinuity | Kind::NothingDiscontinuity
            );
            last[which] = if jump || random.one_in(60) {
                random.below(16) as u8
            } else {
                right
            };
            one.counter = Some(last[which]);
            packets.push(one);
        }
        let bytes = segment(&packets);
        caller.check_wide(suite, &bytes, &["runs"]);
    }
}
