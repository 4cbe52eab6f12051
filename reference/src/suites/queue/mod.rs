//! Queues, and what is sent of them.

mod chain;
mod limits;
mod refusals;
mod scripts;
mod sending;
mod sizes;
pub mod states;
mod total;

use crate::kit::Definition;

/// Those that can run with the reference in both roles; `states` cannot.
pub const SUITES: &[&Definition] = &[
    &scripts::SUITE,
    &refusals::SUITE,
    &sizes::SUITE,
    &limits::SUITE,
    &sending::SUITE,
    &chain::SUITE,
    &total::SUITE,
];
