//! The AV1 descriptors (000, 2).

use crate::refusal::{OUTPUT_TOO_SHORT, Refusal};

/// "Registration: 05 04 41 56 30 31."
pub const REGISTRATION: [u8; 6] = [0x05, 0x04, 0x41, 0x56, 0x30, 0x31];

/// "Video descriptor: 80 04, then the four bytes of 000 2.2.1."
pub const VIDEO_TAG: u8 = 0x80;
const VIDEO_LENGTH: u8 = 4;

/// A field of 000 2.2.1, and the condition of 41 by it.
pub struct Field {
    pub name: &'static str,
    pub width: u32,
    pub past: &'static str,
}

macro_rules! field {
    ($name:literal, $width:literal) => {
        Field {
            name: $name,
            width: $width,
            past: concat!("41: ", $name, " past its width"),
        }
    };
}

/// The fields between the version and the reserved bit, in order.
pub const FIELDS: [Field; 10] = [
    field!("seq_profile", 3),
    field!("seq_level_idx_0", 5),
    field!("seq_tier_0", 1),
    field!("high_bitdepth", 1),
    field!("twelve_bit", 1),
    field!("monochrome", 1),
    field!("chroma_subsampling_x", 1),
    field!("chroma_subsampling_y", 1),
    field!("chroma_sample_position", 2),
    field!("hdr_wcg_idc", 2),
];

/// The conditions of 40.
pub const CONDITIONS_40: &[&str] = &[
    "40: not six bytes",
    "40: tag",
    "40: length",
    "40: marker",
    "40: version",
    "40: reserved bit",
    "40: low four bits with no delay",
];

/// A video descriptor's values.
#[derive(Clone, Copy, Debug, PartialEq, Eq)]
pub struct Video {
    pub fields: [u8; 10],
    /// initial_presentation_delay_minus_one, the raw four bits.
    pub delay: Option<u8>,
}

/// Takes bits from the front of 32.
struct Bits {
    left: u32,
}

impl Bits {
    fn take(&mut self, width: u32) -> u8 {
        let value = self.left >> (32 - width);
        self.left <<= width;
        value as u8
    }
}

/// "Refusal 40: not six bytes, tag or length wrong, marker not 1, version not 1, the reserved bit
/// set, or the low four bits not zero where no delay is present. Other values pass."
pub fn read(bytes: &[u8]) -> Result<Video, Refusal> {
    let wrong = |condition| Err(Refusal::new(40, 0, condition));
    let (tag, length, a, b, c, d) = match bytes {
        &[tag, length, a, b, c, d] => (tag, length, a, b, c, d),
        _ => return wrong("40: not six bytes"),
    };
    if tag != VIDEO_TAG {
        return wrong("40: tag");
    }
    if length != VIDEO_LENGTH {
        return wrong("40: length");
    }
    let mut bits = Bits {
        left: u32::from_be_bytes([a, b, c, d]),
    };
    if bits.take(1) != 1 {
        return wrong("40: marker");
    }
    if bits.take(7) != 1 {
        return wrong("40: version");
    }
    let mut fields = [0; 10];
    for (value, field) in fields.iter_mut().zip(&FIELDS) {
        *value = bits.take(field.width);
    }
    if bits.take(1) != 0 {
        return wrong("40: reserved bit");
    }
    let present = bits.take(1) == 1;
    let low = bits.take(4);
    if !present && low != 0 {
        return wrong("40: low four bits with no delay");
    }
    let delay = if present { Some(low) } else { None };
    Ok(Video { fields, delay })
}

/// "Writing puts marker and version itself"; of the delay it "writes absent with four zeros"; "41
/// comes before 8".
pub fn write(fields: &[u8; 10], room: usize) -> Result<[u8; 6], Refusal> {
    let mut bits: u32 = 0;
    let mut put = |value: u8, width: u32| bits = bits << width | u32::from(value);
    put(1, 1);
    put(1, 7);
    for (&value, field) in fields.iter().zip(&FIELDS) {
        if u32::from(value) >= 1 << field.width {
            return Err(Refusal::new(41, 0, field.past));
        }
        put(value, field.width);
    }
    // The reserved bit, initial_presentation_delay_present, and four zeros.
    put(0, 1);
    put(0, 1);
    put(0, 4);
    if room < 6 {
        return Err(Refusal::new(8, 0, OUTPUT_TOO_SHORT));
    }
    let [a, b, c, d] = bits.to_be_bytes();
    Ok([VIDEO_TAG, VIDEO_LENGTH, a, b, c, d])
}

/// What a rewrite gives.
#[derive(Clone, Copy, Debug, PartialEq, Eq)]
pub struct Rewritten {
    pub bytes: [u8; 6],
    /// "a rewrite says that it dropped one exactly where one was present"
    pub dropped_delay: bool,
}

/// Reading, then writing: it tries 40, then 8.
pub fn rewrite(bytes: &[u8], room: usize) -> Result<Rewritten, Refusal> {
    let video = read(bytes)?;
    Ok(Rewritten {
        bytes: write(&video.fields, room)?,
        dropped_delay: video.delay.is_some(),
    })
}
