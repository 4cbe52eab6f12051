//! Writing, reading and checking one access unit.

use crate::Answer;

c_functions! {
    /// Writes OBUs that stand back to back, with their lengths, as one unit to the front of `out`;
    /// `count` is the number of bytes written.
    av1ts_write_unit as write_unit(in obus: u8, in lengths: usize, out out: u8) -> Answer;

    /// Writes the OBUs of a carried unit back to back to the front of `out` and their lengths to the
    /// front of `lengths`; `count` is the number of OBUs, `bytes` the bytes written, `dropped` the
    /// bytes dropped in all.
    av1ts_read_unit as read_unit(in unit: u8, out out: u8, out lengths: usize) -> Answer;

    /// The same, and how many bytes the size of each OBU takes to the front of `widths`, 0 where it
    /// has none.
    av1ts_read_unit_widths as read_unit_widths(
        in unit: u8, out out: u8, out lengths: usize, out widths: usize
    ) -> Answer;

    /// Tries all refusals of reading but 8; the figures are those of `read_unit`.
    av1ts_check_unit as check_unit(in unit: u8) -> Answer;
}
