//! The functions under test of descriptors, segments and salvaging: the library's, or the reference's
//! own. Those of queues and sheets stand beside their callers.

use crate::helpers::payload::{refused, written};
use av1ts::Answer;
use av1ts::descriptor::{Descriptor, Rewritten};
use av1ts::salvage::Salvaged;
use av1ts::segment::Segment;
use reference::comparison::{Comparison, Found};
use reference::refusal::Refusal;
use reference::segment::{Accepted, Rooms};
use reference::{descriptor, salvage, segment, unit};
use std::sync::atomic::{AtomicBool, Ordering};

static ITSELF: AtomicBool = AtomicBool::new(false);

/// From here on the reference stands in both roles.
pub fn choose_itself() {
    ITSELF.store(true, Ordering::Relaxed);
}

/// Whether the library is under test.
pub fn library() -> bool {
    !ITSELF.load(Ordering::Relaxed)
}

pub fn read_descriptor(bytes: &[u8]) -> Descriptor {
    if library() {
        return av1ts::descriptor::read_descriptor(bytes);
    }
    descriptor_answer(&descriptor::read(bytes))
}

pub fn write_descriptor(fields: &[u8; 10], out: &mut [u8]) -> Answer {
    if library() {
        return av1ts::descriptor::write_descriptor(fields, out);
    }
    match descriptor::write(fields, out.len()) {
        Err(refusal) => refused(&refusal),
        Ok(bytes) => {
            out[..6].copy_from_slice(&bytes);
            written(6)
        }
    }
}

pub fn rewrite_descriptor(bytes: &[u8], out: &mut [u8]) -> Rewritten {
    if library() {
        return av1ts::descriptor::rewrite_descriptor(bytes, out);
    }
    let rewritten = descriptor::rewrite(bytes, out.len());
    if let Ok(rewritten) = &rewritten {
        out[..6].copy_from_slice(&rewritten.bytes);
    }
    rewritten_answer(&rewritten)
}

/// The check of a segment, by the function that takes an edition or by the one that takes none.
pub fn check_segment(edition: Option<u64>, bytes: &[u8], outputs: SegmentOutputs) -> Segment {
    let rooms = rooms_of(&outputs);
    let (out, lengths, times) = outputs;
    if library() {
        return match edition {
            None => av1ts::segment::check_segment(bytes, out, lengths, times),
            Some(edition) => {
                av1ts::segment::check_segment_edition(edition, bytes, out, lengths, times)
            }
        };
    }
    let verdict = segment::check_edition(edition.unwrap_or(0), bytes, rooms);
    match &verdict {
        Err(_) => {
            out.fill(0);
            lengths.fill(0);
            times.fill(0);
        }
        Ok(accepted) => {
            let mut at = 0;
            for (index, unit) in accepted.units.iter().enumerate() {
                out[at..at + unit.bytes.len()].copy_from_slice(&unit.bytes);
                at += unit.bytes.len();
                lengths[index] = unit.bytes.len();
                times[2 * index] = unit.pts;
                times[2 * index + 1] = unit.dts;
            }
        }
    }
    segment_answer(&verdict)
}

/// The three outputs of a check, lent: bytes, lengths and times.
pub type SegmentOutputs<'a> = (&'a mut [u8], &'a mut [usize], &'a mut [u64]);

/// How long the outputs of a check are.
pub fn rooms_of((bytes, lengths, times): &SegmentOutputs) -> Rooms {
    Rooms {
        bytes: bytes.len(),
        lengths: lengths.len(),
        times: times.len(),
    }
}

pub fn salvage(input: &[u8], out: &mut [u8], marks: &mut [u8]) -> Salvaged {
    if library() {
        return av1ts::salvage::salvage(input, out, marks);
    }
    let salvaged = salvage::salvage(input, out.len(), marks.len());
    if let Ok(salvaged) = &salvaged {
        out[..salvaged.bytes.len()].copy_from_slice(&salvaged.bytes);
        for (at, mark) in salvaged.marks.iter().enumerate() {
            marks[at] = mark.number();
        }
    }
    salvaged_answer(&salvaged)
}

/// Whether reading accepts a unit.
pub fn reading_accepts(carried: &[u8]) -> bool {
    if library() {
        return av1ts::unit::check_unit(carried).number == 0;
    }
    unit::accept(carried).is_ok()
}

/// What the C interface answers to salvaging.
pub fn salvaged_answer(salvaged: &Result<salvage::Salvaged, Refusal>) -> Salvaged {
    match salvaged {
        Err(refusal) => refused!(Salvaged, refusal),
        Ok(salvaged) => Salvaged {
            bytes: salvaged.bytes.len() as u64,
            tsobus: salvaged.marks.len() as u64,
            kept: salvaged.kept() as u64,
            leading: salvaged.leading as u64,
            accepted: u64::from(salvaged.accepted),
            ..Salvaged::default()
        },
    }
}

/// What the C interface answers to the reading of a descriptor.
pub fn descriptor_answer(read: &Result<descriptor::Video, Refusal>) -> Descriptor {
    match read {
        Err(refusal) => refused!(Descriptor, refusal),
        Ok(video) => Descriptor {
            field: video.fields.map(u64::from),
            delay_present: u64::from(video.delay.is_some()),
            delay: u64::from(video.delay.unwrap_or(0)),
            ..Descriptor::default()
        },
    }
}

/// What the C interface answers to the rewrite of a descriptor.
pub fn rewritten_answer(rewritten: &Result<descriptor::Rewritten, Refusal>) -> Rewritten {
    match rewritten {
        Err(refusal) => refused!(Rewritten, refusal),
        Ok(rewritten) => Rewritten {
            count: 6,
            dropped_delay: u64::from(rewritten.dropped_delay),
            ..Rewritten::default()
        },
    }
}

/// What the C interface answers to the check of a segment.
pub fn segment_answer(verdict: &Result<Accepted, Refusal>) -> Segment {
    match verdict {
        Err(refusal) => refused!(Segment, refusal),
        Ok(accepted) => Segment {
            compared: u64::from(accepted.comparison.is_some()),
            unit: accepted.comparison.map_or(0, |found| found.unit as u64),
            field: accepted.comparison.map_or(0, field_answer),
            number: 0,
            place: 0,
            program: u64::from(accepted.program),
            pid: u64::from(accepted.pid),
            units: accepted.units.len() as u64,
            null_packets: accepted.totals.null,
            section: accepted.totals.section,
            av1: accepted.totals.av1,
            other_listed: accepted.totals.other_listed,
            unlisted: accepted.totals.unlisted,
        },
    }
}

/// A field's number, or 43 in its place.
fn field_answer(comparison: Comparison) -> u64 {
    match comparison.found {
        Found::Field(index) => index as u64,
        Found::CutShort => 43,
    }
}
