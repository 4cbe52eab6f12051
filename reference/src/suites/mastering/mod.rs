//! Mastering displays.

mod read;
mod write;

use crate::kit::Definition;

pub const SUITES: &[&Definition] = &[&read::SUITE, &write::SUITE];
