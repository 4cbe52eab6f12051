//! Video descriptors.

mod read;
mod rewrite;
mod write;

use crate::kit::Definition;

pub const SUITES: &[&Definition] = &[&read::SUITE, &write::SUITE, &rewrite::SUITE];
