//! AV1 in MPEG-2 transport streams: a binding over libav1ts.a.
//!
//! What stands at the root is for programs: a refusal is an error that prints in words, outputs are
//! allocated, and a walk is an iterator.
//!
//! ```
//! let unit = av1ts::write_unit(&[&[0x12, 0][..], &[0x30, 0, 0, 1]])?;
//! for payload in av1ts::payloads(&unit) {
//!     println!("{:02X?}", payload?);
//! }
//! # Ok::<(), av1ts::Refused>(())
//! ```
//!
//! The modules are the calls as they are in C, for those who lend their own buffers and look at
//! numbers: a module names the C functions of its topic, and each has one safe function. Every one
//! lends whole slices: the C side gets each slice's own address and length, inputs are shared and
//! outputs exclusive, so no safe call can misuse it.

/// C functions, each with the safe function that takes the same. Of a slice behind `in`, which is
/// shared, or `out`, which is exclusive, the C side gets the address and the length; of ten values
/// behind `ten` the address; of what stands behind `flag` 1 or 0; of all else the value.
macro_rules! c_functions {
    ($($(#[$about:meta])* $c:ident as $name:ident($($arguments:tt)*) -> $answer:ty;)*) => {
        $(c_functions! { @ [$(#[$about])* $c $name $answer] () () () $($arguments)* })*
    };
    (@ [$(#[$about:meta])* $c:ident $name:ident $answer:ty]
     ($($taken:tt)*) ($($declared:tt)*) ($($passed:tt)*)) => {
        $(#[$about])*
        pub fn $name($($taken)*) -> $answer {
            extern "C" {
                fn $c($($declared)*) -> $answer;
            }
            // SAFETY: each slice is valid for its length, ten values are ten, and no output overlaps
            // anything else; the C side takes any number and any struct.
            unsafe { $c($($passed)*) }
        }
    };
    (@ $head:tt ($($taken:tt)*) ($($declared:tt)*) ($($passed:tt)*)
     in $slice:ident: $element:ty $(, $($rest:tt)*)?) => {
        c_functions! { @ $head
            ($($taken)* $slice: &[$element],)
            ($($declared)* $slice: *const $element, _: usize,)
            ($($passed)* $slice.as_ptr(), $slice.len(),)
            $($($rest)*)? }
    };
    (@ $head:tt ($($taken:tt)*) ($($declared:tt)*) ($($passed:tt)*)
     out $slice:ident: $element:ty $(, $($rest:tt)*)?) => {
        c_functions! { @ $head
            ($($taken)* $slice: &mut [$element],)
            ($($declared)* $slice: *mut $element, _: usize,)
            ($($passed)* $slice.as_mut_ptr(), $slice.len(),)
            $($($rest)*)? }
    };
    (@ $head:tt ($($taken:tt)*) ($($declared:tt)*) ($($passed:tt)*)
     ten $values:ident: $element:ty $(, $($rest:tt)*)?) => {
        c_functions! { @ $head
            ($($taken)* $values: &[$element; 10],)
            ($($declared)* $values: *const $element,)
            ($($passed)* $values.as_ptr(),)
            $($($rest)*)? }
    };
    (@ $head:tt ($($taken:tt)*) ($($declared:tt)*) ($($passed:tt)*)
     flag $flag:ident $(, $($rest:tt)*)?) => {
        c_functions! { @ $head
            ($($taken)* $flag: bool,)
            ($($declared)* $flag: u64,)
            ($($passed)* u64::from($flag),)
            $($($rest)*)? }
    };
    (@ $head:tt ($($taken:tt)*) ($($declared:tt)*) ($($passed:tt)*)
     $value:ident: $kind:ty $(, $($rest:tt)*)?) => {
        c_functions! { @ $head
            ($($taken)* $value: $kind,)
            ($($declared)* $value: $kind,)
            ($($passed)* $value,)
            $($($rest)*)? }
    };
}

pub mod descriptor;
pub mod mastering;
pub mod payload;
pub mod queue;
pub mod replay;
pub mod salvage;
pub mod segment;
pub mod sheet;
pub mod unit;
pub mod walk;

/// `av1ts_answer`: number 0 is success; in a refusal all but number and place is 0.
#[repr(C)]
#[derive(Clone, Copy, Debug, Default, PartialEq, Eq)]
pub struct Answer {
    pub number: u64,
    pub place: u64,
    pub count: u64,
    pub bytes: u64,
    pub dropped: u64,
}

mod safe;

pub use safe::*;
