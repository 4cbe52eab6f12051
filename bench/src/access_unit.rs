//! Access units to measure on: a temporal delimiter, a frame header and four tile groups.

use crate::input::{Clip, Kind, Source};
use reference::unit::written;

const DELIMITER: u8 = 2;
const FRAME_HEADER: u8 = 3;
const TILE_GROUP: u8 = 4;
const HAS_SIZE: u8 = 2;

const FRAME_HEADER_BYTES: usize = 18;
const TILE_GROUPS: usize = 4;

/// OBUs back to back, and their lengths.
pub struct ObuList {
    pub bytes: Vec<u8>,
    pub lengths: Vec<usize>,
}

impl AsRef<[u8]> for ObuList {
    fn as_ref(&self) -> &[u8] {
        &self.bytes
    }
}

/// Units of one size and kind.
pub struct Units {
    pub kind: Kind,
    pub lists: Vec<ObuList>,
    pub carried: Vec<Vec<u8>>,
}

/// Whether OBUs say their sizes.
#[derive(Clone, Copy)]
pub enum Sizes {
    Present,
    Absent,
}

impl Units {
    pub fn new(count: usize, kind: Kind, len: usize, clip: &Clip) -> Units {
        Units::with(Sizes::Present, count, kind, len, clip)
    }

    pub fn with(sizes: Sizes, count: usize, kind: Kind, len: usize, clip: &Clip) -> Units {
        let mut source = Source::new(kind, clip);
        let list = |_| obu_list(len, sizes, &mut source);
        let lists: Vec<ObuList> = (0..count).map(list).collect();
        Units {
            kind,
            carried: lists.iter().map(carried).collect(),
            lists,
        }
    }
}

/// A list of `len` bytes in all.
fn obu_list(len: usize, sizes: Sizes, source: &mut Source) -> ObuList {
    let mut list = ObuList {
        bytes: vec![DELIMITER << 3 | HAS_SIZE, 0],
        lengths: vec![2],
    };
    let header = list.bytes.len() + leading(FRAME_HEADER_BYTES, sizes);
    add(&mut list, FRAME_HEADER, FRAME_HEADER_BYTES, sizes, source);
    // The first bit, show_existing_frame, is 0: tile groups follow.
    list.bytes[header] &= 0x7F;
    for left in (1..=TILE_GROUPS).rev() {
        let share = (len - list.bytes.len()) / left;
        add(&mut list, TILE_GROUP, share, sizes, source);
    }
    list
}

/// The list as a carried unit, by the second program.
fn carried(list: &ObuList) -> Vec<u8> {
    written(&list.bytes, &list.lengths).expect("the list is a legal one")
}

/// Adds an OBU of `len` bytes: header, size where it says one, content.
fn add(list: &mut ObuList, obu_type: u8, len: usize, sizes: Sizes, source: &mut Source) {
    let width = leading(len, sizes) - 1;
    let size = len - 1 - width;
    let has_size = if width > 0 { HAS_SIZE } else { 0 };
    list.bytes.push(obu_type << 3 | has_size);
    for k in 0..width {
        let more = if k + 1 < width { 0x80 } else { 0 };
        list.bytes.push((size >> (7 * k) & 0x7F) as u8 | more);
    }
    list.bytes.extend(source.bytes(size));
    list.lengths.push(len);
}

/// The bytes before the content of an OBU of `len` bytes: header, and the shortest size that fits.
fn leading(len: usize, sizes: Sizes) -> usize {
    let width = match sizes {
        Sizes::Present => (1..8).find(|&width| len - 1 - width < 1 << (7 * width)),
        Sizes::Absent => Some(0),
    };
    1 + width.expect("an OBU is at most 1 MiB")
}
