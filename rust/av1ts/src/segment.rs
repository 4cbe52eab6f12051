//! Checking a segment and extracting its AV1 access units.

/// `av1ts_segment`: what acceptance gives; in a refusal all but number and place is 0. Where a
/// sequence header disagrees with the video descriptor or is cut short, `compared` is 1, `unit` the
/// index of the first such header's unit, and `field` that of its first differing field, or 43.
#[repr(C)]
#[derive(Clone, Copy, Debug, Default, PartialEq, Eq)]
pub struct Segment {
    pub number: u64,
    pub place: u64,
    pub program: u64,
    pub pid: u64,
    pub units: u64,
    pub null_packets: u64,
    pub section: u64,
    pub av1: u64,
    pub other_listed: u64,
    pub unlisted: u64,
    pub compared: u64,
    pub unit: u64,
    pub field: u64,
}

c_functions! {
    /// Writes the carried units back to back to the front of `out`, their lengths to the front of
    /// `lengths`, and their PTS and DTS in turn to the front of `times`. A refusal leaves zeros
    /// throughout the three.
    av1ts_check_segment as check_segment(
        in segment: u8, out out: u8, out lengths: usize, out times: u64
    ) -> Segment;

    /// The same in an edition: 0 current, 1 draft, any other is number 44. Under draft a unit without
    /// times has 8,589,934,592 for both.
    av1ts_check_segment_edition as check_segment_edition(
        edition: u64, in segment: u8, out out: u8, out lengths: usize, out times: u64
    ) -> Segment;
}
