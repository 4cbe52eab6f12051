//! The replay of the transport buffer.

pub mod arrivals;
pub mod fill;
