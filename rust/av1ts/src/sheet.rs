//! The sheet beside a segment: writing it, reading it, and finding a unit by it.

/// `av1ts_sheet_written`: `count` is the number of bytes written. Where the check refuses, number
/// and place are its own.
#[repr(C)]
#[derive(Clone, Copy, Debug, Default, PartialEq, Eq)]
pub struct SheetWritten {
    pub number: u64,
    pub place: u64,
    pub count: u64,
}

/// `av1ts_sheet`: the three counts; in a refusal all but number and place is 0.
#[repr(C)]
#[derive(Clone, Copy, Debug, Default, PartialEq, Eq)]
pub struct Sheet {
    pub number: u64,
    pub place: u64,
    pub streams: u64,
    pub units: u64,
    pub obus: u64,
}

/// `av1ts_sheet_found`: where `found` is 0 the sheet has no such unit; in a refusal all but number
/// and place is 0.
#[repr(C)]
#[derive(Clone, Copy, Debug, Default, PartialEq, Eq)]
pub struct SheetFound {
    pub number: u64,
    pub place: u64,
    pub found: u64,
    pub first_packet: u64,
    pub length: u64,
    pub pts: u64,
    pub dts: u64,
}

c_functions! {
    /// Checks a segment in an edition, as `check_segment_edition` does, and writes its sheet to the
    /// front of `sheet`.
    av1ts_write_sheet as write_sheet(
        edition: u64, in segment: u8, out out: u8, out lengths: usize, out times: u64, out sheet: u8
    ) -> SheetWritten;

    /// Writes the numbers of the three sections, without their counts, to the front of each output:
    /// two a stream, four a unit, four an OBU.
    av1ts_read_sheet as read_sheet(
        in sheet: u8, out streams: u64, out units: u64, out obus: u64
    ) -> Sheet;

    /// The unit of a number, from 0.
    av1ts_sheet_unit as sheet_unit(in sheet: u8, unit: u64) -> SheetFound;
}
