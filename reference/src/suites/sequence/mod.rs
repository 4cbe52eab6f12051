//! Sequence headers beside the video descriptor.

mod cuts;
mod fields;
mod real;
mod units;

use crate::kit::Definition;

pub const SUITES: &[&Definition] = &[&fields::SUITE, &cuts::SUITE, &units::SUITE, &real::SUITE];
