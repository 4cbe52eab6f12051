//! One OBU, and the order of OBUs, without the library.

mod check;
mod leb128;
mod order;

use crate::kit::Definition;

pub const SUITES: &[&Definition] = &[&leb128::SUITE, &check::SUITE, &order::SUITE];
