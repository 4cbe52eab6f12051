//! The sequence header (AV1 5.5), up to the colour configuration.

use super::finding::Finding;
use super::obu;

/// The nine fields that a video descriptor repeats, in its order.
pub const FIELDS: [&str; 9] = [
    "seq_profile",
    "seq_level_idx_0",
    "seq_tier_0",
    "high_bitdepth",
    "twelve_bit",
    "monochrome",
    "chroma_subsampling_x",
    "chroma_subsampling_y",
    "chroma_sample_position",
];

/// What a sequence header says.
#[derive(Clone, Debug)]
pub struct Sequence {
    pub field: [u64; 9],
    pub width: u64,
    pub height: u64,
    /// colour_primaries, transfer_characteristics, matrix_coefficients
    pub colour: [u64; 3],
}

/// Bits from the front of some bytes.
struct Bits<'a> {
    bytes: &'a [u8],
    at: usize,
}

impl Bits<'_> {
    fn take(&mut self, count: usize) -> Option<u64> {
        let mut value = 0;
        for _ in 0..count {
            let byte = self.bytes.get(self.at / 8)?;
            value = value << 1 | u64::from(byte >> (7 - self.at % 8) & 1);
            self.at += 1;
        }
        Some(value)
    }

    fn flag(&mut self) -> Option<bool> {
        Some(self.take(1)? == 1)
    }

    fn pass(&mut self, count: usize) -> Option<()> {
        self.at += count;
        if self.at <= 8 * self.bytes.len() {
            Some(())
        } else {
            None
        }
    }

    /// A number of variable length.
    fn uvlc(&mut self) -> Option<()> {
        let mut zeros = 0;
        while !self.flag()? {
            zeros += 1;
        }
        self.pass(if zeros < 32 { zeros } else { 0 })
    }
}

/// The header of an OBU that is a sequence header.
pub fn of_obu(bytes: &[u8]) -> Option<Sequence> {
    let header = obu::read(bytes);
    if header.kind == 1 {
        read(header.content(bytes))
    } else {
        None
    }
}

/// The header of a content, or none where the content is cut short.
pub fn read(content: &[u8]) -> Option<Sequence> {
    let bits = &mut Bits {
        bytes: content,
        at: 0,
    };
    let profile = bits.take(3)?;
    bits.pass(1)?;
    let reduced = bits.flag()?;
    let (level, tier) = if reduced {
        (bits.take(5)?, 0)
    } else {
        operating_points(bits)?
    };
    let (wide, high) = (bits.take(4)? + 1, bits.take(4)? + 1);
    let width = bits.take(wide as usize)? + 1;
    let height = bits.take(high as usize)? + 1;
    tools(bits, reduced)?;
    let (chroma, colour) = colour_config(bits, profile)?;
    let mut field = [profile, level, tier, 0, 0, 0, 0, 0, 0];
    field[3..].copy_from_slice(&chroma);
    Some(Sequence {
        field,
        width,
        height,
        colour,
    })
}

/// Timing and operating points: level and tier of the first.
fn operating_points(bits: &mut Bits) -> Option<(u64, u64)> {
    let mut delay_bits = None;
    if bits.flag()? {
        bits.pass(64)?;
        if bits.flag()? {
            bits.uvlc()?;
        }
        if bits.flag()? {
            delay_bits = Some(bits.take(5)? as usize + 1);
            bits.pass(42)?;
        }
    }
    let display_delay = bits.flag()?;
    let count = bits.take(5)? + 1;
    let mut first = None;
    for _ in 0..count {
        bits.pass(12)?;
        let level = bits.take(5)?;
        let tier = if level > 7 { bits.take(1)? } else { 0 };
        first = first.or(Some((level, tier)));
        if let Some(delay) = delay_bits {
            if bits.flag()? {
                bits.pass(2 * delay + 1)?;
            }
        }
        if display_delay && bits.flag()? {
            bits.pass(4)?;
        }
    }
    first
}

/// The coding tools, which no descriptor repeats.
fn tools(bits: &mut Bits, reduced: bool) -> Option<()> {
    if !reduced && bits.flag()? {
        bits.pass(7)?;
    }
    bits.pass(3)?;
    if !reduced {
        bits.pass(4)?;
        let hints = bits.flag()?;
        if hints {
            bits.pass(2)?;
        }
        let choose = bits.flag()?;
        let screen = choose || bits.flag()?;
        if screen && !bits.flag()? {
            bits.pass(1)?;
        }
        if hints {
            bits.pass(3)?;
        }
    }
    bits.pass(3)
}

/// high_bitdepth to chroma_sample_position, and the colour description.
fn colour_config(bits: &mut Bits, profile: u64) -> Option<([u64; 6], [u64; 3])> {
    let deep = bits.take(1)?;
    let twelve = if profile == 2 && deep == 1 {
        bits.take(1)?
    } else {
        0
    };
    let mono = if profile == 1 { 0 } else { bits.take(1)? };
    let mut colour = [2, 2, 2];
    if bits.flag()? {
        for value in &mut colour {
            *value = bits.take(8)?;
        }
    }
    if mono == 1 {
        bits.pass(1)?;
        return Some(([deep, twelve, mono, 1, 1, 0], colour));
    }
    if colour == [1, 13, 0] {
        return Some(([deep, twelve, mono, 0, 0, 0], colour));
    }
    bits.pass(1)?;
    let (x, y) = match profile {
        0 => (1, 1),
        1 => (0, 0),
        _ if twelve == 1 => {
            let x = bits.take(1)?;
            (x, if x == 1 { bits.take(1)? } else { 0 })
        }
        _ => (1, 0),
    };
    let position = if x == 1 && y == 1 { bits.take(2)? } else { 0 };
    Some(([deep, twelve, mono, x, y, position], colour))
}

impl Sequence {
    /// The header field by field.
    pub fn findings(&self) -> Vec<Finding> {
        let mut found: Vec<Finding> = FIELDS
            .iter()
            .zip(self.field)
            .map(|(name, value)| Finding::new(*name, value))
            .collect();
        found.push(Finding::new("max_frame_width", self.width));
        found.push(Finding::new("max_frame_height", self.height));
        let names = [
            "color_primaries",
            "transfer_characteristics",
            "matrix_coefficients",
        ];
        for (name, value) in names.iter().zip(self.colour) {
            found.push(Finding::new(*name, value));
        }
        found
    }
}
