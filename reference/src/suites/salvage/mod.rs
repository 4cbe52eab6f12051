//! Salvaging.

mod damaged;
mod leading;
mod limits;
mod marks;
mod rooms;

use crate::kit::Definition;

pub const SUITES: &[&Definition] = &[
    &marks::SUITE,
    &damaged::SUITE,
    &leading::SUITE,
    &limits::SUITE,
    &rooms::SUITE,
];
