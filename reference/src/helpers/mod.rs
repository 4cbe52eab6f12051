//! What several suites use: callers that compare the library with the reference, and inputs.

/// A refusal as the C interface answers it: its number and its place, and all else 0.
macro_rules! refused {
    ($answer:ident, $refusal:expr) => {
        $answer {
            number: $refusal.number,
            place: $refusal.place,
            ..$answer::default()
        }
    };
}

pub mod descriptor;
pub mod leb128;
pub mod mastering;
pub mod obu;
pub mod payload;
pub mod queue;
pub mod replay;
pub mod salvage;
pub mod segment;
pub mod sequence;
pub mod sheet;
pub mod under_test;
pub mod unit;
