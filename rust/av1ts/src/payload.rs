//! Escaping and unescaping one OBU.

use crate::Answer;

c_functions! {
    /// Writes the escaped OBU to the front of `out`; `count` is the number of bytes written.
    av1ts_escape as escape(in obu: u8, out out: u8) -> Answer;

    /// Writes the unescaped payload to the front of `out`; `count` is the number of bytes written,
    /// `dropped` the number of bytes dropped.
    av1ts_unescape as unescape(in payload: u8, out out: u8) -> Answer;
}
