//! The header of an OBU.

use super::byte;

/// What the header says.
#[derive(Clone, Copy, Debug)]
pub struct Header {
    pub kind: u8,
    pub forbidden: bool,
    pub extension: Option<u8>,
    pub has_size: bool,
    /// The size, where it is a leb128.
    pub size: Option<u64>,
    /// How many bytes the size takes.
    pub width: usize,
    /// Where the content begins.
    pub content_at: usize,
}

/// The header, as far as it can be taken apart.
pub fn read(obu: &[u8]) -> Header {
    let first = byte(obu, 0);
    let extended = first & 4 != 0;
    let has_size = first & 2 != 0;
    let at = if extended { 2 } else { 1 };
    let (size, width) = if has_size { leb128(obu, at) } else { (None, 0) };
    Header {
        kind: first >> 3 & 15,
        forbidden: first & 0x80 != 0,
        extension: if extended { obu.get(1).copied() } else { None },
        has_size,
        size,
        width,
        content_at: at + width,
    }
}

/// A number and its width.
pub fn leb128(bytes: &[u8], at: usize) -> (Option<u64>, usize) {
    let mut value = 0;
    for width in 1..=8 {
        match bytes.get(at + width - 1) {
            None => return (None, width - 1),
            Some(byte) => {
                value |= u64::from(byte & 0x7F) << (7 * (width - 1));
                if byte & 0x80 == 0 {
                    return (Some(value), width);
                }
            }
        }
    }
    (None, 8)
}

/// The shortest leb128 of a number.
fn to_leb128(mut value: u64) -> Vec<u8> {
    let mut bytes = Vec::new();
    while value >= 0x80 {
        bytes.push(value as u8 | 0x80);
        value >>= 7;
    }
    bytes.push(value as u8);
    bytes
}

impl Header {
    pub fn content<'a>(&self, obu: &'a [u8]) -> &'a [u8] {
        &obu[self.content_at.min(obu.len())..]
    }

    /// Whether a frame header shows a frame again.
    pub fn shows_again(&self, obu: &[u8]) -> bool {
        self.kind == 3 && byte(self.content(obu), 0) & 0x80 != 0
    }

    /// Whether its frame is shown, where it has a frame header.
    pub fn shows(&self, obu: &[u8]) -> Option<bool> {
        match self.kind {
            3 | 6 => {
                let bits = byte(self.content(obu), 0);
                Some(bits & 0x80 != 0 || bits & 0x10 != 0)
            }
            _ => None,
        }
    }

    /// Whether it begins a key frame.
    pub fn key(&self, obu: &[u8]) -> bool {
        matches!(self.kind, 3 | 6) && byte(self.content(obu), 0) & 0xE0 == 0
    }
}

/// A type in words.
pub fn type_name(kind: u8) -> &'static str {
    match kind {
        1 => "sequence header",
        2 => "temporal delimiter",
        3 => "frame header",
        4 => "tile group",
        5 => "metadata",
        6 => "frame",
        7 => "redundant frame header",
        8 => "tile list",
        15 => "padding",
        _ => "reserved",
    }
}

/// The OBU with a size of the shortest form, as files have it.
pub fn with_size(obu: &[u8]) -> Vec<u8> {
    let header = read(obu);
    if header.has_size || obu.is_empty() {
        return obu.to_vec();
    }
    let content = header.content(obu);
    let mut sized = vec![obu[0] | 2];
    sized.extend(header.extension);
    sized.extend(to_leb128(content.len() as u64));
    sized.extend(content);
    sized
}
