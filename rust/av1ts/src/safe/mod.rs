//! The library as Rust has it: what is refused is an error that prints in words, outputs are
//! allocated in the size that is needed, and a walk is an iterator.

mod descriptor;
mod mastering;
mod payload;
mod queue;
mod refusal;
mod replay;
mod salvage;
mod segment;
mod sheet;
mod unit;
mod walk;

pub use descriptor::{Rewritten, VideoDescriptor};
pub use mastering::MasteringFigures;
pub use payload::{Unescaped, escape, unescape};
pub use queue::{Channel, Queue, QueuedUnit};
pub use refusal::{Refusal, Refused};
pub use replay::{Arrival, Replay};
pub use salvage::{Mark, Salvaged, salvage};
pub use segment::{
    AccessUnit, Disagreement, Edition, Mismatch, NO_TIME, Packets, Segment, check_segment,
    check_segment_edition,
};
pub use sheet::{Sheet, SheetObu, SheetStream, SheetUnit};
pub use unit::{Unit, UnitFigures, check_unit, read_unit, write_unit};
pub use walk::{Payloads, payloads};

/// The most bytes of the OBUs of a unit together; an output need not be longer.
const MOST_OBU_BYTES: usize = 1_048_576;

/// The most bytes of a payload that is unescaped alone.
const MOST_PAYLOAD_BYTES: usize = 1_572_864;

/// The most bytes of a unit as carried.
const MOST_CARRIED_BYTES: usize = 1_573_056;

/// The most OBUs of a unit.
const MOST_OBUS: usize = 64;

/// The most bytes of a segment: 65,535 packets.
const MOST_SEGMENT_BYTES: usize = 65_535 * 188;

/// The most units of a segment.
const MOST_UNITS: usize = 1024;
