//! Checking a segment.

use crate::input::{Clip, Kind, MAX_UNITS, Size};
use crate::measure::{Case, Outputs, Peer, Plan, Row, copy};
use crate::multiplex::{AV1_PID, Multiplex, PACKETS, long_units, nulls, of_packets, small_units};
use crate::peers::{Job, Packets, packets, plain, sse2};
use av1ts::segment::{Segment, check_segment};

const FUNCTION: &str = "check_segment";

/// Room for any segment of a length.
pub fn room(len: usize) -> Outputs {
    Outputs::touched(len, MAX_UNITS)
}

/// What the check of a segment has to leave there.
pub fn expected(multiplex: &Multiplex) -> Outputs {
    let mut out = room(multiplex.segment.len());
    out.bytes[..multiplex.units.len()].copy_from_slice(&multiplex.units);
    out.lengths[..multiplex.lengths.len()].copy_from_slice(&multiplex.lengths);
    out.times[..multiplex.times.len()].copy_from_slice(&multiplex.times);
    out
}

pub fn measure(plan: &Plan, clip: &Clip, rows: &mut Vec<Row>) -> Result<(), String> {
    rows.extend(each(plan, clip, FUNCTION, row)?);
    Ok(())
}

/// The row of a function on the segment of a case.
pub type SegmentRow = fn(&Case<Multiplex>) -> Result<Row, String>;

/// The rows of a function on each segment that is measured.
pub fn each(
    plan: &Plan,
    clip: &Clip,
    function: &'static str,
    row: SegmentRow,
) -> Result<Vec<Row>, String> {
    let on = |kind, size, segment: Multiplex| {
        row(&Case::of_segment(plan, [function, kind, size], &segment))
    };
    let mut rows = Vec::new();
    for kind in Kind::ALL {
        let segment = long_units(kind, plan.part, clip);
        rows.push(on(kind.name(), plan.segment_size, segment)?);
    }
    let small = small_units(clip);
    rows.push(on(Kind::RealAv1.name(), "1,024 small units", small)?);
    let nulls = nulls(PACKETS / plan.part, clip);
    rows.push(on("null packets", plan.segment_size, nulls)?);
    Ok(rows)
}

/// The rows of numbers of packets doubled.
pub fn growth(plan: &Plan, sizes: &[Size], clip: &Clip) -> Result<Vec<Row>, String> {
    let kind = Kind::RealAv1;
    let of = |&(count, size): &Size| {
        let segment = of_packets(count, kind, clip);
        row(&Case::of_segment(
            plan,
            [FUNCTION, kind.name(), size],
            &segment,
        ))
    };
    sizes.iter().map(of).collect()
}

fn row(case: &Case<Multiplex>) -> Result<Row, String> {
    for multiplex in case.inputs {
        same(case, multiplex)?;
    }
    let peers = vec![
        (Peer::PlainC, case.run(&copy_payloads)),
        (Peer::PacketLoop, case.run(&read_packets)),
        (Peer::Sse2, case.run(&check_by_hand)),
        (Peer::Memcpy, case.run(&copy)),
    ];
    Ok(case.row(&mut room(case.amount), case.run(&check), peers))
}

/// Checks that the library gives what was multiplexed, and each peer as much of it as it gives.
fn same(case: &Case<Multiplex>, multiplex: &Multiplex) -> Result<(), String> {
    let expected = expected(multiplex);
    let mut out = room(case.amount);
    let answer = check(multiplex, &mut out);
    if answer != multiplex.figures || out != expected {
        return Err(case.difference(&answer, &multiplex.figures));
    }
    for read in [read_packets, check_by_hand] {
        let mut out = room(case.amount);
        let found = read(multiplex, &mut out);
        if found != packets_of(multiplex) || out != expected {
            return Err(case.difference(&found, &packets_of(multiplex)));
        }
    }
    let mut out = room(case.amount);
    copy_payloads(multiplex, &mut out);
    if out.bytes != expected.bytes {
        return Err("plain C copies other bytes than were multiplexed".to_string());
    }
    Ok(())
}

/// What a packet loop has to give.
fn packets_of(multiplex: &Multiplex) -> Packets {
    Packets {
        number: 0,
        units: multiplex.figures.units,
        bytes: multiplex.units.len() as u64,
        null_packets: multiplex.figures.null_packets,
        av1: multiplex.figures.av1,
    }
}

pub fn check(multiplex: &Multiplex, out: &mut Outputs) -> Segment {
    check_segment(
        &multiplex.segment,
        &mut out.bytes,
        &mut out.lengths,
        &mut out.times,
    )
}

fn copy_payloads(multiplex: &Multiplex, out: &mut Outputs) -> usize {
    plain::copy_payloads(&multiplex.segment, AV1_PID, &mut out.bytes)
}

fn read_packets(multiplex: &Multiplex, out: &mut Outputs) -> Packets {
    packets::read(&job(multiplex, out))
}

fn check_by_hand(multiplex: &Multiplex, out: &mut Outputs) -> Packets {
    sse2::check_segment(&job(multiplex, out))
}

fn job<'a>(multiplex: &'a Multiplex, out: &'a mut Outputs) -> Job<'a> {
    let Outputs {
        bytes,
        lengths,
        times,
        ..
    } = out;
    Job::new(&multiplex.segment, AV1_PID, bytes, lengths, times)
}
