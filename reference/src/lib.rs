//! An independent implementation of the rules, straight from their sentences.
//!
//! Each function stands under the sentence it says. Nothing here uses the library or its binding.

pub mod comparison;
pub mod compose;
pub mod crc;
pub mod descriptor;
pub mod edition;
pub mod listing;
pub mod mastering;
pub mod obu;
pub mod order;
pub mod packet;
pub mod payload;
pub mod pes;
pub mod queue;
pub mod refusal;
pub mod replay;
pub mod report;
pub mod salvage;
pub mod section;
pub mod segment;
pub mod sequence;
pub mod sheet;
pub mod unit;
pub mod walk;
