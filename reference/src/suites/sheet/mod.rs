//! Sheets beside a segment.

mod bytes;
mod conditions;
mod counts;
mod limits;
mod rooms;
mod written;

use crate::kit::Definition;

pub const SUITES: &[&Definition] = &[
    &written::SUITE,
    &conditions::SUITE,
    &bytes::SUITE,
    &counts::SUITE,
    &limits::SUITE,
    &rooms::SUITE,
];
