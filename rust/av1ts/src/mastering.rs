//! Mastering figures: the content of metadata_hdr_mdcv.

use crate::Answer;

/// `av1ts_mastering`: the figures in the content's order: x and y of the three primaries, x and y of
/// the white point, luminance_max, luminance_min. In a refusal they are 0.
#[repr(C)]
#[derive(Clone, Copy, Debug, Default, PartialEq)]
pub struct Mastering {
    pub number: u64,
    pub place: u64,
    pub figure: [f64; 10],
}

c_functions! {
    /// The figures of a content, from its metadata type on.
    av1ts_read_mastering as read_mastering(in content: u8) -> Mastering;

    /// Writes the content of ten values of ST 2086, in the content's order, to the front of `out`;
    /// `count` is the number of bytes written.
    av1ts_write_mastering as write_mastering(ten value: u64, out out: u8) -> Answer;
}
