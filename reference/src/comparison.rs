//! The comparison of the video descriptor with the stream's sequence headers.

use crate::descriptor::Video;
use crate::obu::{self, SEQUENCE_HEADER};
use crate::segment::Unit;
use crate::{sequence, unit};

/// What is found of a header that disagrees or is cut short.
#[derive(Clone, Copy, Debug, PartialEq, Eq)]
pub enum Found {
    /// "its first differing field in descriptor order", from 0
    Field(usize),
    /// "43 in place of the field where that header is cut short, whatever differs before"
    CutShort,
}

/// "the unit of the first header in stream order that disagrees or is cut short"
#[derive(Clone, Copy, Debug, PartialEq, Eq)]
pub struct Comparison {
    pub unit: usize,
    pub found: Found,
}

/// The content of an OBU that reading accepts.
pub fn content(obu: &[u8]) -> &[u8] {
    let header = obu::header(obu[0]);
    let rest = &obu[1 + usize::from(header.extension)..];
    if !header.has_size {
        return rest;
    }
    let size = obu::leb128(rest).expect("reading accepts it");
    &rest[size.width..]
}

/// One header against a descriptor. "compare the nine fields from seq_profile to
/// chroma_sample_position".
pub fn header(video: &Video, content: &[u8]) -> Option<Found> {
    match sequence::read(content) {
        Err(sequence::CutShort) => Some(Found::CutShort),
        Ok(fields) => (0..fields.len())
            .find(|&index| fields[index] != video.fields[index])
            .map(Found::Field),
    }
}

/// "In an accepted segment with a descriptor, each sequence header is compared".
pub fn compare(video: Option<&Video>, units: &[Unit]) -> Option<Comparison> {
    let video = video?;
    for (index, carried) in units.iter().enumerate() {
        let obus = unit::accept(&carried.bytes).expect("the segment is accepted");
        for obu in obus {
            match header(video, content(&obu.bytes)) {
                Some(found) if obu.kind.obu_type() == SEQUENCE_HEADER => {
                    return Some(Comparison { unit: index, found });
                }
                _ => {}
            }
        }
    }
    None
}
