//! One OBU: header, size field, and the refusals 3, 4, 5, 6 and 42 (AV1 5.3).

use crate::refusal::Refusal;

/// The types that the rules speak of by name.
pub const SEQUENCE_HEADER: u8 = 1;
pub const TEMPORAL_DELIMITER: u8 = 2;
pub const FRAME_HEADER: u8 = 3;
pub const TILE_LIST: u8 = 8;

/// What the order rule knows OBUs by: their type, where frame headers are of two kinds.
#[derive(Clone, Copy, Debug, PartialEq, Eq)]
pub enum Kind {
    /// An OBU of that type, but not the other kind.
    Type(u8),
    /// A frame header that shows a frame again: it is the whole frame.
    ShownAgain,
}

impl Kind {
    /// "The first content bit of a type 3 OBU is that flag".
    pub fn new(obu_type: u8, content: &[u8]) -> Kind {
        match (obu_type, content.first()) {
            (FRAME_HEADER, Some(&first)) if first >= 0x80 => Kind::ShownAgain,
            _ => Kind::Type(obu_type),
        }
    }

    pub fn obu_type(self) -> u8 {
        match self {
            Kind::Type(obu_type) => obu_type,
            Kind::ShownAgain => FRAME_HEADER,
        }
    }
}

/// "Refusals: 42 at the OBU's index, for that bit or a type 1 or 3 without content". That bit is
/// reduced_still_picture_header, the "fifth content bit" of a sequence header.
pub fn wrong_content(obu_type: u8, content: &[u8]) -> Option<&'static str> {
    match (obu_type, content.first()) {
        (SEQUENCE_HEADER, None) => Some("42: sequence header without content"),
        (FRAME_HEADER, None) => Some("42: frame header without content"),
        (SEQUENCE_HEADER, Some(&first)) if first >> 3 & 1 == 1 => {
            Some("42: reduced_still_picture_header")
        }
        _ => None,
    }
}

/// The conditions of 42.
pub const CONDITIONS_42: &[&str] = &[
    "42: sequence header without content",
    "42: frame header without content",
    "42: reduced_still_picture_header",
];

/// A leb128 as read: its value and the number of bytes it takes.
#[derive(Clone, Copy, Debug, PartialEq, Eq)]
pub struct Leb128 {
    pub value: u64,
    pub width: usize,
}

/// "a leb128 follows: seven bits a byte, low first, top bit set means more; at most 8 bytes, value
/// at most 4,294,967,295; a longer form than needed is allowed."
pub fn leb128(bytes: &[u8]) -> Result<Leb128, &'static str> {
    let mut value: u64 = 0;
    for i in 0..8 {
        let byte = match bytes.get(i) {
            Some(&byte) => byte,
            _ => return Err("5: leb128 cut short"),
        };
        value += u64::from(byte & 0x7F) << (7 * i);
        if byte & 0x80 == 0 {
            if value > 4_294_967_295 {
                return Err("5: leb128 value over 4,294,967,295");
            }
            return Ok(Leb128 {
                value,
                width: i + 1,
            });
        }
    }
    Err("5: leb128 over 8 bytes")
}

/// "OBU header: bit 7 forbidden, must be 0; bits 6 to 3 type; bit 2 extension; bit 1 has-size;
/// bit 0 ignored."
#[derive(Clone, Copy, Debug, PartialEq, Eq)]
pub struct Header {
    pub forbidden: bool,
    pub obu_type: u8,
    pub extension: bool,
    pub has_size: bool,
}

pub fn header(byte: u8) -> Header {
    Header {
        forbidden: byte & 0x80 != 0,
        obu_type: (byte >> 3) & 0x0F,
        extension: byte & 0x04 != 0,
        has_size: byte & 0x02 != 0,
    }
}

/// What the check of an OBU gives: its kind, and the width of its size field, "0 where no size is
/// present".
#[derive(Clone, Copy, Debug, PartialEq, Eq)]
pub struct Checked {
    pub kind: Kind,
    pub width: usize,
}

/// Tries 3, 4, 5, 6 and 42 on one OBU, which has the given index.
pub fn check(obu: &[u8], index: usize) -> Result<Checked, Refusal> {
    // "an OBU of no bytes"
    let first = match obu.first() {
        Some(&first) => first,
        _ => return Err(Refusal::new(3, index, "3: no bytes")),
    };
    let header = header(first);
    let mut rest = &obu[1..];

    // "forbidden bit, or extension byte missing"
    if header.forbidden {
        return Err(Refusal::new(4, index, "4: forbidden bit"));
    }
    // "With extension set a second byte follows."
    if header.extension {
        if rest.is_empty() {
            return Err(Refusal::new(4, index, "4: extension byte missing"));
        }
        rest = &rest[1..];
    }

    // "bad leb128, size wrong, or a delimiter with content"
    let mut width = 0;
    if header.has_size {
        let size = leb128(rest).map_err(|condition| Refusal::new(5, index, condition))?;
        width = size.width;
        rest = &rest[size.width..];
        // "The value must equal the bytes that remain."
        if size.value > rest.len() as u64 {
            return Err(Refusal::new(5, index, "5: size above what remains"));
        }
        if size.value < rest.len() as u64 {
            return Err(Refusal::new(5, index, "5: size below what remains"));
        }
    }
    // "Without has-size the rest is the content. A temporal delimiter has no content."
    if header.obu_type == TEMPORAL_DELIMITER && !rest.is_empty() {
        return Err(Refusal::new(5, index, "5: delimiter with content"));
    }

    // "tile list"
    if header.obu_type == TILE_LIST {
        return Err(Refusal::new(6, index, "6: tile list"));
    }
    // "after 6 for that OBU"
    if let Some(condition) = wrong_content(header.obu_type, rest) {
        return Err(Refusal::new(42, index, condition));
    }
    Ok(Checked {
        kind: Kind::new(header.obu_type, rest),
        width,
    })
}
