//! Mastering figures: the content of metadata_hdr_mdcv (AV1 5.8).

use crate::obu::leb128;
use crate::refusal::{OUTPUT_TOO_SHORT, Refusal};

/// "type 2 as leb128 (written as 02)"
const TYPE: u64 = 2;

/// "then the trailing bits as the one byte 80"
const TRAILING: u8 = 0x80;

/// Bytes of the content as written: the type, eight chromaticities, two luminances, trailing bits.
pub const WRITTEN: usize = 1 + 8 * 2 + 2 * 4 + 1;

/// A figure of the content.
pub struct Figure {
    pub name: &'static str,
    /// Its bytes.
    pub size: usize,
    /// The content's whole number is the figure times two to this power.
    pub power: u32,
    /// ST 2086 has so many steps of it in 1.
    pub steps: u128,
    /// The condition of 49 by it.
    pub past: &'static str,
}

/// A chromaticity: 1/65,536 in the content, steps of 0.00002 in ST 2086.
macro_rules! chromaticity {
    ($name:literal) => {
        Figure {
            name: $name,
            size: 2,
            power: 16,
            steps: 50_000,
            past: concat!("49: ", $name, " past 50,000"),
        }
    };
}

/// A luminance: steps of 0.0001 in ST 2086.
macro_rules! luminance {
    ($name:literal, $power:literal) => {
        Figure {
            name: $name,
            size: 4,
            power: $power,
            steps: 10_000,
            past: concat!("49: ", $name, " past 32 bits"),
        }
    };
}

/// The ten figures, in the content's order.
pub const FIGURES: [Figure; 10] = [
    chromaticity!("primary_chromaticity_x[0]"),
    chromaticity!("primary_chromaticity_y[0]"),
    chromaticity!("primary_chromaticity_x[1]"),
    chromaticity!("primary_chromaticity_y[1]"),
    chromaticity!("primary_chromaticity_x[2]"),
    chromaticity!("primary_chromaticity_y[2]"),
    chromaticity!("white_point_chromaticity_x"),
    chromaticity!("white_point_chromaticity_y"),
    luminance!("luminance_max", 8),
    luminance!("luminance_min", 14),
];

/// The conditions of 48.
pub const CONDITIONS_48: &[&str] = &[
    "48: type is no leb128",
    "48: another type",
    "48: too short",
    "48: too long",
    "48: trailing byte not 80",
];

/// The bits of the double that is a whole number divided by a power of two, which it is exactly: the
/// number's highest bit is the hidden one, those below it stand at the top of the 52.
pub fn double_bits(whole: u32, power: u32) -> u64 {
    if whole == 0 {
        return 0;
    }
    let mut highest = 31;
    while whole >> highest == 0 {
        highest -= 1;
    }
    let exponent = u64::from(1023 + highest - power);
    let below = u64::from(whole) - (1 << highest);
    exponent << 52 | below << (52 - highest)
}

/// Reading: the bits of ten doubles. "Refusals: 48 content not of this form".
pub fn read(content: &[u8]) -> Result<[u64; 10], Refusal> {
    let wrong = |condition| Err(Refusal::new(48, 0, condition));
    let metadata_type = match leb128(content) {
        Ok(metadata_type) => metadata_type,
        _ => return wrong("48: type is no leb128"),
    };
    if metadata_type.value != TYPE {
        return wrong("48: another type");
    }
    let rest = &content[metadata_type.width..];
    if rest.len() < WRITTEN - 1 {
        return wrong("48: too short");
    }
    if rest.len() > WRITTEN - 1 {
        return wrong("48: too long");
    }
    if rest[WRITTEN - 2] != TRAILING {
        return wrong("48: trailing byte not 80");
    }
    let mut bits = [0; 10];
    let mut at = 0;
    for (bits, figure) in bits.iter_mut().zip(&FIGURES) {
        let mut whole = 0;
        for &byte in &rest[at..at + figure.size] {
            whole = whole << 8 | u32::from(byte);
        }
        at += figure.size;
        *bits = double_bits(whole, figure.power);
    }
    Ok(bits)
}

/// A value of ST 2086 as the content's nearest whole number; "no half can arise".
pub fn nearest(value: u64, figure: &Figure) -> u128 {
    let scaled = u128::from(value) << figure.power;
    let (whole, rest) = (scaled / figure.steps, scaled % figure.steps);
    if 2 * rest > figure.steps {
        whole + 1
    } else {
        whole
    }
}

/// Writing: "49 a chromaticity past 50,000, or a luminance that rounds past 32 bits, then 8";
/// "50,000 would become 65,536 and is written as 65,535".
pub fn write(values: &[u64; 10], room: usize) -> Result<Vec<u8>, Refusal> {
    let mut written = vec![TYPE as u8];
    for (&value, figure) in values.iter().zip(&FIGURES) {
        let mut whole = nearest(value, figure);
        if figure.size == 2 {
            if value > 50_000 {
                return Err(Refusal::new(49, 0, figure.past));
            }
            whole = whole.min(65_535);
        }
        if whole > u128::from(u32::MAX) {
            return Err(Refusal::new(49, 0, figure.past));
        }
        written.extend_from_slice(&whole.to_be_bytes()[16 - figure.size..]);
    }
    written.push(TRAILING);
    if written.len() > room {
        return Err(Refusal::new(8, 0, OUTPUT_TOO_SHORT));
    }
    Ok(written)
}
