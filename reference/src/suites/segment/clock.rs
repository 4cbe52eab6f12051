//! PCRs: where one stands, on which PID, and whether it counts for 31.

use crate::helpers::segment::set_up::{
    AV1, MAP, OTHER, PROGRAM, UNLISTED, entries, pat_body, unit,
};
use crate::helpers::segment::{Caller, refused_by, wide};
use crate::kit::{Definition, Suite, labels};
use reference::compose::{self, Load, Packet, Pes, segment};
use reference::packet::NULL;

pub const SUITE: Definition = Definition {
    name: "segment-clock",
    labels: || {
        labels(&[
            "accepted",
            "31: no PCR yet",
            "29: before any start",
            "counts: alone, before the unit",
            "counts: in the unit's first packet",
            "counts: in a repeated PMT",
            "counts: in a repeated PAT",
            "counts: on an unlisted PID",
            "counts: on another listed PID",
            "does not count: before the PAT",
            "does not count: between PAT and PMT",
            "does not count: in the PMT's own packet",
            "does not count: on another PID",
            "does not count: on PID 1FFF",
            "does not count: after the unit's first packet",
            "29 before 31",
        ])
    },
    run,
};

/// The places where the PCR can stand.
#[derive(Clone, Copy, Debug, PartialEq, Eq)]
enum Place {
    BeforePat,
    InPat,
    BetweenBoth,
    InPmt,
    Alone,
    WithPayload,
    InPatAgain,
    InPmtAgain,
    AtStart,
    InLater,
    AfterAll,
}

const PLACES: [Place; 11] = [
    Place::BeforePat,
    Place::InPat,
    Place::BetweenBoth,
    Place::InPmt,
    Place::Alone,
    Place::WithPayload,
    Place::InPatAgain,
    Place::InPmtAgain,
    Place::AtStart,
    Place::InLater,
    Place::AfterAll,
];

const PIDS: [u16; 7] = [AV1, OTHER, UNLISTED, 0, MAP, NULL, 0x0999];

/// A packet with a PCR on a PID; on PID 0 and the map PID without payload, or with the section.
fn clock(pid: u16, with_payload: bool) -> Packet {
    let mut packet = Packet::clock(pid, (7, 7));
    if with_payload {
        packet.load = Load::Bytes(vec![0xFF; 176]);
    }
    packet
}

/// A segment whose PCR PID is `pcr_pid`, with one PCR: at a place, or on a PID where the place leaves
/// that open; none where both do not go together. Of the PES there is all, or not its start, or
/// nothing.
fn packets(pcr_pid: u16, place: Place, pid: u16, pes: usize) -> Option<Vec<Packet>> {
    let pmt_body = compose::pmt(PROGRAM, pcr_pid, &[], &entries());
    let (mut pat, mut pmt) = (
        Packet::section(0, pat_body()),
        Packet::section(MAP, pmt_body),
    );
    let (mut pat_again, mut pmt_again) = (pat.clone(), pmt.clone());
    let mut start = Pes::new(90, None, &unit(200)).packets(AV1);
    if pes == 1 {
        // No start at all: the payload comes before any.
        start[0].start = false;
    }
    start[0].bytes_mut().truncate(170);
    start[1] = Packet::new(AV1, false, Load::Bytes(vec![0xAA; 53]));
    let pcr = Some((7, 7));
    let (mut before, mut between, mut after, mut last) = (None, None, None, None);
    match place {
        Place::BeforePat => before = Some(clock(pid, false)),
        Place::InPat => pat.pcr = pcr,
        Place::BetweenBoth => between = Some(clock(pid, false)),
        Place::InPmt => pmt.pcr = pcr,
        Place::Alone => after = Some(clock(pid, false)),
        Place::WithPayload if pid == 0 || pid == MAP || pid == AV1 => return None,
        Place::WithPayload => after = Some(clock(pid, true)),
        Place::InPatAgain => pat_again.pcr = pcr,
        Place::InPmtAgain => pmt_again.pcr = pcr,
        Place::AtStart => start[0].pcr = pcr,
        Place::InLater => start[1].pcr = pcr,
        Place::AfterAll => last = Some(clock(pid, false)),
    }
    let mut packets = Vec::new();
    packets.extend(before);
    packets.push(pat);
    packets.extend(between);
    packets.push(pmt);
    packets.extend(after);
    packets.extend([pat_again, pmt_again]);
    if pes < 2 {
        packets.extend(start);
    }
    packets.extend(last);
    Some(packets)
}

/// Whether the PCR counts, by the words of the rule, and the label that says why.
fn counts(pcr_pid: u16, place: Place, pid: u16, pes: usize) -> (bool, &'static str) {
    let own = match place {
        Place::InPat | Place::InPatAgain => 0,
        Place::InPmt | Place::InPmtAgain => MAP,
        Place::AtStart | Place::InLater => AV1,
        _ => pid,
    };
    let late = matches!(place, Place::InLater | Place::AfterAll);
    let early = matches!(
        place,
        Place::BeforePat | Place::InPat | Place::BetweenBoth | Place::InPmt
    );
    let counts = own == pcr_pid && own != NULL && !late && !early;
    let label = match place {
        _ if pes == 2 => "no unit",
        _ if pes == 1 && !counts => "29 before 31",
        Place::BeforePat | Place::InPat => "does not count: before the PAT",
        Place::BetweenBoth => "does not count: between PAT and PMT",
        Place::InPmt => "does not count: in the PMT's own packet",
        Place::InLater | Place::AfterAll => "does not count: after the unit's first packet",
        _ if own == NULL => "does not count: on PID 1FFF",
        _ if !counts => "does not count: on another PID",
        Place::InPatAgain => "counts: in a repeated PAT",
        Place::InPmtAgain => "counts: in a repeated PMT",
        Place::AtStart => "counts: in the unit's first packet",
        _ if own == OTHER => "counts: on another listed PID",
        _ if own == UNLISTED => "counts: on an unlisted PID",
        _ => "counts: alone, before the unit",
    };
    (counts, label)
}

fn one(suite: &mut Suite, caller: &mut Caller, pcr_pid: u16, place: Place, pid: u16, pes: usize) {
    let bytes = match packets(pcr_pid, place, pid, pes) {
        Some(packets) => segment(&packets),
        None => return,
    };
    let (counts, label) = counts(pcr_pid, place, pid, pes);
    caller.check_wide_as(suite, &bytes, &[label], |verdict| match pes {
        0 if !counts => refused_by(verdict, 31),
        1 => refused_by(verdict, 29),
        _ => verdict.is_ok(),
    });
    let mut none = wide(&bytes);
    none.bytes = 0;
    caller.check(suite, &bytes, none, &[label]);
}

fn run(suite: &mut Suite) {
    let mut caller = Caller::default();
    for pcr_pid in PIDS {
        for place in PLACES {
            for pid in PIDS {
                for pes in 0..3 {
                    one(suite, &mut caller, pcr_pid, place, pid, pes);
                }
            }
        }
    }
}
