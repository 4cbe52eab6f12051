//! Walks over units.

mod late;
mod places;

use crate::kit::Definition;

pub const SUITES: &[&Definition] = &[&places::SUITE, &late::SUITE];
