//! Replays of the buffer.

mod boundaries;
mod cut;
mod states;
mod ticks;

use crate::kit::Definition;

pub const SUITES: &[&Definition] = &[
    &ticks::SUITE,
    &boundaries::SUITE,
    &cut::SUITE,
    &states::SUITE,
];
