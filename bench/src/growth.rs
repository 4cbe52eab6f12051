//! How cost grows: sizes doubled, of real AV1.

use crate::input::{Clip, Size};
use crate::measure::{Plan, Row};
use crate::{segment, unit};

/// Bytes of a unit's OBUs.
const UNITS: [Size; 11] = [
    (1 << 10, "1 KiB"),
    (1 << 11, "2 KiB"),
    (1 << 12, "4 KiB"),
    (1 << 13, "8 KiB"),
    (1 << 14, "16 KiB"),
    (1 << 15, "32 KiB"),
    (1 << 16, "64 KiB"),
    (1 << 17, "128 KiB"),
    (1 << 18, "256 KiB"),
    (1 << 19, "512 KiB"),
    (1 << 20, "1 MiB"),
];

/// Packets of a segment, up to as many as it can have.
const SEGMENTS: [Size; 8] = [
    (512, "512 packets"),
    (1_024, "1,024"),
    (2_048, "2,048"),
    (4_096, "4,096"),
    (8_192, "8,192"),
    (16_384, "16,384"),
    (32_768, "32,768"),
    (65_535, "65,535"),
];

/// The rows of each function on units.
pub fn of_units(plan: &Plan, clip: &Clip) -> Result<Vec<Vec<Row>>, String> {
    unit::growth(plan, &UNITS, clip)
}

/// The rows of each function on segments.
pub fn of_segments(plan: &Plan, clip: &Clip) -> Result<Vec<Vec<Row>>, String> {
    Ok(vec![segment::growth(plan, &SEGMENTS, clip)?])
}
