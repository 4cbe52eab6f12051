//! The check of a segment.

mod clock;
mod closing;
mod copies;
mod counters;
mod damaged;
mod editions;
mod limits;
mod packets;
mod pes;
mod refusals;
mod rooms;
mod sections;
mod valid;

use crate::kit::Definition;

pub const SUITES: &[&Definition] = &[
    &valid::SUITE,
    &refusals::SUITE,
    &counters::SUITE,
    &copies::SUITE,
    &packets::SUITE,
    &sections::SUITE,
    &pes::SUITE,
    &clock::SUITE,
    &rooms::SUITE,
    &closing::SUITE,
    &limits::SUITE,
    &damaged::SUITE,
    &editions::SUITE,
];
