//! A segment and its access units.

use super::{MOST_SEGMENT_BYTES, MOST_UNITS, Refusal, Refused};
use crate::segment;

/// The edition that a segment is checked by.
#[derive(Clone, Copy, Debug, PartialEq, Eq)]
pub enum Edition {
    Current,
    /// For recordings made to the draft of 2018: the registration is 'AV1 ', a descriptor of tag
    /// 0x80 is not looked at, and a unit may have no times.
    Draft,
}

/// Both times of a unit that has none, as the draft allows it.
pub const NO_TIME: u64 = 8_589_934_592;

/// The packets of a segment in five classes.
#[derive(Clone, Copy, Debug, PartialEq, Eq)]
pub struct Packets {
    pub null: usize,
    pub section: usize,
    pub av1: usize,
    pub other_listed: usize,
    pub unlisted: usize,
}

/// The first sequence header, in stream order, that disagrees with the video descriptor or is cut
/// short.
///
/// ```
/// use av1ts::{Disagreement, Mismatch};
/// # let copied = concat!(env!("CARGO_MANIFEST_DIR"), "/../../samples/exercises/08.ts");
/// let segment = av1ts::check_segment(&std::fs::read(copied)?)?;
/// // the descriptor was copied from another channel: field 1, seq_level_idx_0, differs
/// let found = Disagreement::Field(1);
/// assert_eq!(segment.mismatch, Some(Mismatch { unit: 0, found }));
/// # Ok::<(), Box<dyn std::error::Error>>(())
/// ```
#[derive(Clone, Copy, Debug, PartialEq, Eq)]
pub struct Mismatch {
    /// The index of its unit.
    pub unit: usize,
    pub found: Disagreement,
}

/// What is wrong with that header.
#[derive(Clone, Copy, Debug, PartialEq, Eq)]
pub enum Disagreement {
    /// Its first field that differs, in descriptor order: 0 is seq_profile, 8 chroma_sample_position.
    Field(usize),
    /// It ends before chroma_sample_position has been read or passed by.
    CutShort,
}

/// An access unit as carried, and its times in ticks of 90 kHz; both are `NO_TIME` where a draft
/// recording has none.
#[derive(Clone, Copy, Debug, PartialEq, Eq)]
pub struct AccessUnit<'a> {
    pub carried: &'a [u8],
    pub pts: u64,
    pub dts: u64,
}

/// A segment that was accepted.
#[derive(Clone, Debug, PartialEq, Eq)]
pub struct Segment {
    pub program: u16,
    /// The PID of the AV1 stream.
    pub pid: u16,
    pub packets: Packets,
    /// None where each sequence header agrees with the video descriptor, or there is none to compare
    /// with.
    pub mismatch: Option<Mismatch>,
    outputs: Outputs,
}

impl Segment {
    /// The access units, in order.
    pub fn units(&self) -> impl Iterator<Item = AccessUnit<'_>> + '_ {
        let mut rest = &self.outputs.bytes[..];
        let times = self.outputs.times.chunks_exact(2);
        let lengths = self.outputs.lengths.iter();
        lengths.zip(times).map(move |(&length, times)| {
            let (carried, others) = rest.split_at(length);
            rest = others;
            AccessUnit {
                carried,
                pts: times[0],
                dts: times[1],
            }
        })
    }
}

/// Checks a segment of whole packets and takes out its AV1 access units.
///
/// ```
/// # let clip = concat!(env!("CARGO_MANIFEST_DIR"), "/../../samples/clip.ts");
/// let mut packets = std::fs::read(clip)?;
/// let segment = av1ts::check_segment(&packets)?;
/// assert_eq!(segment.program, 1);
/// assert_eq!(segment.mismatch, None); // the descriptor says what the stream does
/// for unit in segment.units().take(3) {
///     let obus = av1ts::read_unit(unit.carried)?;
///     println!("pts {} dts {}: {} OBUs", unit.pts, unit.dts, obus.obus().count());
/// }
///
/// packets.drain(20 * 188..21 * 188); // one packet is lost
/// let refused = av1ts::check_segment(&packets).unwrap_err();
/// assert_eq!(refused.to_string(), "refused 24 at 20: a packet is missing, or comes twice");
/// # Ok::<(), Box<dyn std::error::Error>>(())
/// ```
pub fn check_segment(packets: &[u8]) -> Result<Segment, Refused> {
    check_segment_edition(Edition::Current, packets)
}

/// The same in an edition.
///
/// ```
/// use av1ts::Edition;
/// # let clip = concat!(env!("CARGO_MANIFEST_DIR"), "/../../samples/clip.ts");
/// let packets = std::fs::read(clip)?;
/// let current = av1ts::check_segment_edition(Edition::Current, &packets)?;
/// assert_eq!(current, av1ts::check_segment(&packets)?);
/// // the sample is no draft recording: its PMT has no AV1 stream of that edition
/// let refused = av1ts::check_segment_edition(Edition::Draft, &packets).unwrap_err();
/// assert_eq!(refused.why, av1ts::Refusal::Av1Entry);
/// # Ok::<(), Box<dyn std::error::Error>>(())
/// ```
pub fn check_segment_edition(edition: Edition, packets: &[u8]) -> Result<Segment, Refused> {
    let mut outputs = Outputs::of(packets);
    let answer = segment::check_segment_edition(
        edition.number(),
        packets,
        &mut outputs.bytes,
        &mut outputs.lengths,
        &mut outputs.times,
    );
    Refused::check(answer.number, answer.place)?;
    outputs.cut(answer.units as usize);
    Ok(Segment {
        program: answer.program as u16,
        pid: answer.pid as u16,
        packets: Packets {
            null: answer.null_packets as usize,
            section: answer.section as usize,
            av1: answer.av1 as usize,
            other_listed: answer.other_listed as usize,
            unlisted: answer.unlisted as usize,
        },
        mismatch: mismatch(&answer),
        outputs,
    })
}

/// The outputs of a check: the units back to back, their lengths, and their times in turn.
#[derive(Clone, Debug, PartialEq, Eq)]
pub(super) struct Outputs {
    pub bytes: Vec<u8>,
    pub lengths: Vec<usize>,
    pub times: Vec<u64>,
}

impl Outputs {
    /// With room for whatever the packets hold.
    pub fn of(packets: &[u8]) -> Outputs {
        Outputs {
            bytes: vec![0; packets.len().min(MOST_SEGMENT_BYTES)],
            lengths: vec![0; MOST_UNITS],
            times: vec![0; 2 * MOST_UNITS],
        }
    }

    /// What so many units have written.
    fn cut(&mut self, units: usize) {
        self.lengths.truncate(units);
        self.times.truncate(2 * units);
        self.bytes.truncate(self.lengths.iter().sum());
    }
}

fn mismatch(answer: &segment::Segment) -> Option<Mismatch> {
    if answer.compared == 0 {
        return None;
    }
    let found = if answer.field == Refusal::CutShort.number() {
        Disagreement::CutShort
    } else {
        Disagreement::Field(answer.field as usize)
    };
    Some(Mismatch {
        unit: answer.unit as usize,
        found,
    })
}

impl Edition {
    /// Its number.
    pub fn number(self) -> u64 {
        match self {
            Edition::Current => 0,
            Edition::Draft => 1,
        }
    }
}
