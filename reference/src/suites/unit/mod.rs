//! Access units: the check, reading and writing.

mod content;
mod damaged;
mod demand_3;
mod exhaustive;
mod headers;
mod limits;
mod listing;
mod order;
mod refusals;
mod rooms;
mod valid;
mod widths;
mod worked;
mod write_lengths;

use crate::kit::Definition;

pub const SUITES: &[&Definition] = &[
    &demand_3::SUITE,
    &worked::SUITE,
    &valid::SUITE,
    &refusals::SUITE,
    &damaged::SUITE,
    &rooms::SUITE,
    &limits::SUITE,
    &write_lengths::SUITE,
    &order::SUITE,
    &headers::SUITE,
    &content::SUITE,
    &widths::SUITE,
    &exhaustive::SUITE,
    &listing::SUITE,
];
