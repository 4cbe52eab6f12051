//! Reading, writing and rewriting the AV1 video descriptor.

use crate::Answer;

/// `av1ts_descriptor`: the fields in the descriptor's order. Where no delay is present `delay` is 0.
#[repr(C)]
#[derive(Clone, Copy, Debug, Default, PartialEq, Eq)]
pub struct Descriptor {
    pub number: u64,
    pub place: u64,
    pub field: [u64; 10],
    pub delay_present: u64,
    pub delay: u64,
}

/// `av1ts_rewritten`: the bytes written, and 1 where a delay was dropped. In a refusal all but number
/// and place is 0.
#[repr(C)]
#[derive(Clone, Copy, Debug, Default, PartialEq, Eq)]
pub struct Rewritten {
    pub number: u64,
    pub place: u64,
    pub count: u64,
    pub dropped_delay: u64,
}

c_functions! {
    /// The values of a video descriptor, which is given with tag and length.
    av1ts_read_descriptor as read_descriptor(in bytes: u8) -> Descriptor;

    /// Writes a video descriptor without delay to the front of `out`; `count` is the number of bytes
    /// written.
    av1ts_write_descriptor as write_descriptor(ten field: u8, out out: u8) -> Answer;

    /// Reads a video descriptor and writes it without delay to the front of `out`.
    av1ts_rewrite_descriptor as rewrite_descriptor(in bytes: u8, out out: u8) -> Rewritten;
}
