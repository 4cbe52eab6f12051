//! Payloads: escaping and unescaping.

mod exhaustive;
mod limits;
mod random;
mod worked;

use crate::kit::Definition;

pub const SUITES: &[&Definition] = &[
    &worked::SUITE,
    &exhaustive::SUITE,
    &random::SUITE,
    &limits::SUITE,
];
