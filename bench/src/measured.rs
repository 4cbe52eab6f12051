//! Binding over libmeasured.a: inner functions of the library that have no name in its C interface.

use crate::measure::Outcome;

/// C functions of bytes that write nothing.
macro_rules! asking {
    ($($(#[$said:meta])* $name:ident: $answer:ty = $symbol:ident;)*) => {$(
        $(#[$said])*
        pub fn $name(bytes: &[u8]) -> $answer {
            extern "C" {
                fn $symbol(bytes: *const u8, len: usize) -> $answer;
            }
            // SAFETY: the slice is valid for its length, and only this thread calls the C function,
            // which may fill a table at its first call.
            unsafe { $symbol(bytes.as_ptr(), bytes.len()) }
        }
    )*};
}
pub(crate) use asking;

/// `PacketHeader` of crates/measured: number 0 is success.
#[repr(C)]
#[derive(Clone, Copy, Debug, PartialEq, Eq)]
pub struct Header {
    pub number: u64,
    pub place: u64,
    pub pid: u64,
    pub start: bool,
    pub counter: u64,
    pub discontinuity: bool,
    pub pcr_present: bool,
    pub pcr: u64,
    pub has_payload: bool,
    pub payload: u64,
}

impl Outcome for Header {
    fn is_refusal(&self) -> bool {
        self.number != 0
    }
}

asking! {
    /// `crc::crc32`.
    crc32: u64 = measured_crc32;
    /// `packet::read`.
    header: Header = measured_header;
    /// How many packets of a segment `packet::passes` says to pass.
    headers: u64 = measured_headers;
}
