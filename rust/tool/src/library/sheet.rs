//! 2026-09: the sheet beside a segment.

use super::{Edition, Refused};

pub use av1ts::{Sheet, SheetUnit};

/// The most bytes of a sheet.
pub const MOST_SHEET: usize = Sheet::MOST_BYTES;

/// The sheet of a segment, or what the check refuses.
pub fn write(edition: Edition, packets: &[u8]) -> Result<Vec<u8>, Refused> {
    Ok(Sheet::write(edition, packets)?)
}

pub fn read(bytes: &[u8]) -> Result<Sheet, Refused> {
    Ok(Sheet::read(bytes)?)
}

/// The unit of a number, or none where the sheet has no such unit.
pub fn unit(bytes: &[u8], number: u64) -> Result<Option<SheetUnit>, Refused> {
    Ok(Sheet::unit(bytes, number)?)
}
