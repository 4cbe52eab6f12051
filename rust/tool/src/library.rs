//! The proved library. All that the tool judges is judged here, and nothing else calls the binding.

pub mod queue;
pub mod salvage;
pub mod sheet;

use av1ts::{MasteringFigures, VideoDescriptor, descriptor, mastering, replay, segment, walk};

pub use av1ts::replay::{ReplayState, Replayed};
pub use av1ts::segment::Segment;
pub use av1ts::walk::Step;
pub use av1ts::{Edition, NO_TIME, UnitFigures};

/// The most packets that a check takes.
pub const MOST_PACKETS: usize = 65_535;
/// The most units that a segment has.
pub const MOST_UNITS: usize = 1_024;
/// The most bytes of a carried unit.
pub const MOST_CARRIED: usize = 1_573_056;
/// The most bytes of the OBUs of a unit together.
pub const MOST_UNIT: usize = 1_048_576;
/// The most OBUs of a unit.
pub const MOST_OBUS: usize = 64;
/// The most bytes of one payload.
pub const MOST_PAYLOAD: usize = 1_572_864;

/// The version of the interface, as its header has it.
pub const INTERFACE: &str = env!("AV1TS_INTERFACE");

/// What is refused, and where.
#[derive(Clone, Copy, Debug, PartialEq, Eq)]
pub struct Refused {
    pub number: u64,
    pub place: u64,
}

impl From<av1ts::Refused> for Refused {
    fn from(refused: av1ts::Refused) -> Refused {
        Refused {
            number: refused.why.number(),
            place: refused.place,
        }
    }
}

fn refusal(number: u64, place: u64) -> Result<(), Refused> {
    if number == 0 {
        Ok(())
    } else {
        Err(Refused { number, place })
    }
}

/// A checked segment with its units.
pub struct Checked {
    pub segment: Segment,
    out: Vec<u8>,
    lengths: Vec<usize>,
    times: Vec<u64>,
}

/// An access unit of an accepted segment, as it is carried.
#[derive(Clone, Copy)]
pub struct Unit<'a> {
    pub bytes: &'a [u8],
    pub pts: u64,
    pub dts: u64,
}

impl Checked {
    /// The units of the segment; none where it is refused.
    pub fn units(&self) -> Vec<Unit<'_>> {
        let mut rest: &[u8] = &self.out;
        let count = (self.segment.units as usize).min(MOST_UNITS);
        let mut units = Vec::with_capacity(count);
        for index in 0..count {
            let (bytes, behind) = rest.split_at(self.lengths[index].min(rest.len()));
            rest = behind;
            let (pts, dts) = (self.times[2 * index], self.times[2 * index + 1]);
            units.push(Unit { bytes, pts, dts });
        }
        units
    }

    pub fn refused(&self) -> Option<Refused> {
        refusal(self.segment.number, self.segment.place).err()
    }
}

/// Checks a segment, with room for all of its units.
pub fn check(edition: Edition, packets: &[u8]) -> Checked {
    let mut out = vec![0; packets.len().min(MOST_PACKETS * 188)];
    let mut lengths = vec![0; MOST_UNITS];
    let mut times = vec![0; 2 * MOST_UNITS];
    let number = edition.number();
    let segment =
        segment::check_segment_edition(number, packets, &mut out, &mut lengths, &mut times);
    Checked {
        segment,
        out,
        lengths,
        times,
    }
}

/// Whether reading accepts a carried unit.
pub fn check_unit(carried: &[u8]) -> Result<UnitFigures, Refused> {
    Ok(av1ts::check_unit(carried)?)
}

/// The OBUs of a carried unit.
pub fn read_unit(carried: &[u8]) -> Result<Vec<Vec<u8>>, Refused> {
    let unit = av1ts::read_unit(carried)?;
    Ok(unit.obus().map(<[u8]>::to_vec).collect())
}

/// The carried unit of OBUs.
pub fn write_unit(obus: &[Vec<u8>]) -> Result<Vec<u8>, Refused> {
    Ok(av1ts::write_unit(obus)?)
}

/// The step of a walk over a carried unit.
pub fn step(carried: &[u8], at: usize) -> Step {
    walk::walk_step(carried, at)
}

/// The payload of an OBU.
pub fn escape(obu: &[u8]) -> Result<Vec<u8>, Refused> {
    Ok(av1ts::escape(obu)?)
}

/// The OBU of a payload, and how many bytes were dropped.
pub fn unescape(carried: &[u8]) -> Result<(Vec<u8>, usize), Refused> {
    let unescaped = av1ts::unescape(carried)?;
    Ok((unescaped.obu, unescaped.dropped))
}

/// The ten fields of a video descriptor, and its delay where it has one.
#[derive(Clone, Copy, Debug)]
pub struct Fields {
    pub field: [u64; 10],
    pub delay: Option<u64>,
}

pub fn read_descriptor(bytes: &[u8]) -> Result<Fields, Refused> {
    let answer = descriptor::read_descriptor(bytes);
    refusal(answer.number, answer.place)?;
    let delay = if answer.delay_present == 1 {
        Some(answer.delay)
    } else {
        None
    };
    Ok(Fields {
        field: answer.field,
        delay,
    })
}

pub fn write_descriptor(field: &[u8; 10]) -> Result<Vec<u8>, Refused> {
    let mut out = vec![0; 6];
    let answer = descriptor::write_descriptor(field, &mut out);
    refusal(answer.number, answer.place)?;
    Ok(out)
}

/// The descriptor without its delay, and whether it had one.
pub fn rewrite_descriptor(bytes: &[u8]) -> Result<(Vec<u8>, bool), Refused> {
    let rewritten = VideoDescriptor::rewrite(bytes)?;
    Ok((rewritten.bytes.to_vec(), rewritten.dropped_delay))
}

pub fn read_mastering(content: &[u8]) -> Result<[f64; 10], Refused> {
    let answer = mastering::read_mastering(content);
    refusal(answer.number, answer.place)?;
    Ok(answer.figure)
}

pub fn write_mastering(value: &[u64; 10]) -> Result<Vec<u8>, Refused> {
    Ok(MasteringFigures::write(value)?.to_vec())
}

/// A run over arrivals from a state on.
pub fn run_replay(state: ReplayState, rate: u64, times: &[u64], counts: &[u64]) -> Replayed {
    replay::replay(state, rate, times, counts)
}
