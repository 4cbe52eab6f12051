//! OBUs put together, all kinds of them, and strings to try.

use crate::helpers::leb128::form;
use reference::obu::Kind::{self, ShownAgain, Type};

/// The conditions of 3 to 6 and 42, as the check names them.
pub const CONDITIONS: &[&str] = &[
    "3: no bytes",
    "4: forbidden bit",
    "4: extension byte missing",
    "5: leb128 cut short",
    "5: leb128 over 8 bytes",
    "5: leb128 value over 4,294,967,295",
    "5: size above what remains",
    "5: size below what remains",
    "5: delimiter with content",
    "6: tile list",
    "42: sequence header without content",
    "42: frame header without content",
    "42: reduced_still_picture_header",
];

/// An OBU put together from its parts; `width` is that of the size field, 0 for none.
pub fn build(
    obu_type: u8,
    low: u8,
    extension: Option<u8>,
    width: usize,
    content: &[u8],
) -> Vec<u8> {
    let extension_bit = if extension.is_some() { 4 } else { 0 };
    let size_bit = if width > 0 { 2 } else { 0 };
    let mut bytes = vec![obu_type * 8 + extension_bit + size_bit + low];
    bytes.extend(extension);
    if width > 0 {
        bytes.extend(form(content.len() as u64, width));
    }
    bytes.extend(content);
    bytes
}

/// Every string of a length over an alphabet.
pub fn strings(alphabet: &[u8], len: usize) -> impl Iterator<Item = Vec<u8>> + '_ {
    let count = alphabet.len();
    (0..count.pow(len as u32)).map(move |mut index| {
        let mut bytes = Vec::with_capacity(len);
        for _ in 0..len {
            bytes.push(alphabet[index % count]);
            index /= count;
        }
        bytes
    })
}

/// All kinds: the types, and type 3 a second time.
pub const KINDS: [Kind; 17] = {
    let mut kinds = [ShownAgain; 17];
    let mut obu_type = 0;
    while obu_type < 16 {
        kinds[obu_type as usize] = Type(obu_type);
        obu_type += 1;
    }
    kinds
};
