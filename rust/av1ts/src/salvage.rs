//! Salvaging a damaged unit.

/// `av1ts_salvaged`: the bytes written, the tsOBUs of the input and those kept, the leading bytes
/// dropped, and 1 where reading accepts the result. In a refusal all but number and place is 0.
#[repr(C)]
#[derive(Clone, Copy, Debug, Default, PartialEq, Eq)]
pub struct Salvaged {
    pub number: u64,
    pub place: u64,
    pub bytes: u64,
    pub tsobus: u64,
    pub kept: u64,
    pub leading: u64,
    pub accepted: u64,
}

c_functions! {
    /// Writes the tsOBUs that are right to the front of `out`, each in the writer's form, and a mark
    /// for each tsOBU of the input to the front of `marks`: 0 kept, 1 kept with a closing 03 removed,
    /// else the number that it was dropped with.
    av1ts_salvage as salvage(in unit: u8, out out: u8, out marks: u8) -> Salvaged;
}
