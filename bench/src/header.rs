//! The headers of the packets of a segment: of all its 12 MB, where each header lies in another line
//! of memory, and of the first of them, which stay in the processor's cache.

use crate::input::{Clip, Kind};
use crate::measure::{Case, Names, Peer, Plan, Row, asking, touched};
use crate::measured;
use crate::multiplex::{PACKET_BYTES, long_units};
use crate::peers::plain;

/// Whole packets in 256 KiB.
const CACHED_BYTES: usize = 256 * 1024 / PACKET_BYTES * PACKET_BYTES;

pub fn measure(plan: &Plan, clip: &Clip, rows: &mut Vec<Row>) -> Result<(), String> {
    let segment = long_units(Kind::Random, plan.part, clip).segment;
    let cached = &segment[..CACHED_BYTES];
    for row in [read_row, count_row] {
        rows.push(row(plan, "256 KiB", cached)?);
        rows.push(row(plan, plan.segment_size, &segment)?);
    }
    Ok(())
}

/// Each packet by a call of its own, which gives the fields.
fn read_row(plan: &Plan, size: &'static str, segment: &[u8]) -> Result<Row, String> {
    let packets = whole_packets(segment);
    case(
        plan,
        ["read_header (a header)", "packets", size],
        packets,
        packets.len(),
    )
    .compare(
        &mut touched(PACKET_BYTES),
        &asking(measured::header),
        &[(Peer::PlainC, &|packet: &[u8; PACKET_BYTES],
                           _: &mut Vec<u8>| {
            plain::header(packet)
        })],
    )
}

/// The packets of a segment, each an array.
fn whole_packets(segment: &[u8]) -> &[[u8; PACKET_BYTES]] {
    // SAFETY: so many arrays of bytes lie in the segment, one behind the other.
    unsafe { std::slice::from_raw_parts(segment.as_ptr().cast(), segment.len() / PACKET_BYTES) }
}

/// All packets in one call, which counts those that pass.
fn count_row(plan: &Plan, size: &'static str, segment: &[u8]) -> Result<Row, String> {
    let packets = segment.len() / PACKET_BYTES;
    case(
        plan,
        ["count_headers (a header)", "packets", size],
        &[segment],
        packets,
    )
    .compare(
        &mut touched(segment.len()),
        &asking(measured::headers),
        &[(Peer::PlainC, &asking(plain::headers))],
    )
}

/// Not the bytes count but the headers.
fn case<'a, I: AsRef<[u8]>>(
    plan: &'a Plan,
    names: Names,
    inputs: &'a [I],
    packets: usize,
) -> Case<'a, I> {
    Case {
        amount: packets,
        ..Case::new(plan, names, inputs)
    }
}
