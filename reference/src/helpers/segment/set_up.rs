//! What the segments of the suites have in common: their PIDs, their PAT and PMT, a PCR, and a unit.

pub use crate::helpers::descriptor::EXAMPLE as VIDEO;
use reference::compose::{self, Entry, Packet};

pub const PROGRAM: u16 = 0x0203;
pub const MAP: u16 = 0x0456;
pub const AV1: u16 = 0x0101;
pub const OTHER: u16 = 0x0102;
pub const SECOND: u16 = 0x0103;
pub const UNLISTED: u16 = 0x0300;

/// The entries of the base's PMT.
pub fn entries() -> Vec<Entry> {
    vec![
        Entry::new(0x0F, OTHER, &[0x0A, 0x01, 0x55]),
        Entry::av1(AV1, &VIDEO),
        Entry::new(0x06, SECOND, &[]),
    ]
}

/// More entries, up to so many.
pub fn more_entries(entries: &mut Vec<Entry>, count: usize) {
    while entries.len() < count {
        let pid = 0x0600 + entries.len() as u16;
        entries.push(Entry::new(0x0F, pid, &[]));
    }
}

pub fn pat_body() -> Vec<u8> {
    compose::pat(&[(PROGRAM, MAP)])
}

pub fn pmt_body(entries: &[Entry]) -> Vec<u8> {
    compose::pmt(PROGRAM, AV1, &[0x0B, 0x02, 0x11, 0x22], entries)
}

/// A unit of a delimiter and a frame with so many bytes of content.
pub fn unit(content: usize) -> Vec<u8> {
    let mut unit = vec![0, 0, 1, 0x12, 0x00, 0, 0, 1, 0x30];
    unit.resize(9 + content, 0xAA);
    unit
}

/// What comes before the units: PAT, PMT and a PCR.
pub fn head() -> Vec<Packet> {
    head_of(pmt_body(&entries()))
}

/// The same with another PMT.
pub fn head_of(pmt: Vec<u8>) -> Vec<Packet> {
    compose::head((PROGRAM, MAP), pmt, Packet::clock(AV1, (1, 1)))
}
