//! Tables and PES headers that others write.

use crate::check::piece::Piece;
use crate::library::{self, Edition};
use crate::reading::byte;
use crate::reading::packet::packet;
use crate::reading::pmt::{self, Pmt, registration};
use crate::reading::section::Section;

/// 25: more than one program.
pub fn programs(piece: &Piece, place: usize) -> Option<String> {
    let section = Section::new(packet(&piece.bytes, place).payload());
    if section.content().len() < 8 {
        return None;
    }
    Some("a segment has one program: take one out of this multiplex first".to_string())
}

/// 28: no AV1 entry as it should be.
pub fn av1(piece: &Piece, place: usize, edition: Edition) -> Vec<String> {
    let table = pmt::read(Section::new(packet(&piece.bytes, place).payload()));
    let has = |bytes: &[u8]| {
        let mut all = table.entries.iter().flat_map(|entry| &entry.descriptors);
        all.any(|descriptor| descriptor == bytes)
    };
    if edition == Edition::Current && has(registration(Edition::Draft)) {
        return vec![draft(piece)];
    }
    if edition == Edition::Draft && has(registration(Edition::Current)) {
        return vec!["the registration is that of the current edition".to_string()];
    }
    if has(registration(edition)) {
        return Vec::new();
    }
    vec![absent(&table)]
}

/// The words where no registration stands anywhere.
fn absent(table: &Pmt) -> String {
    let types: Vec<u8> = table
        .entries
        .iter()
        .map(|entry| entry.stream_type)
        .collect();
    let named = types.iter().find_map(|kind| codec(*kind));
    if types.contains(&6) {
        return "there is private data (stream_type 0x06) without the registration 'AV01': some \
                multiplexers write AV1 so, and no receiver can know it for AV1"
            .to_string();
    }
    match named {
        Some(codec) => format!("the video of this program is {codec}, not AV1"),
        None => "this program has no private data stream that could be AV1".to_string(),
    }
}

fn codec(stream_type: u8) -> Option<&'static str> {
    match stream_type {
        0x01 => Some("MPEG-1"),
        0x02 => Some("MPEG-2"),
        0x10 => Some("MPEG-4"),
        0x1B => Some("AVC"),
        0x24 => Some("HEVC"),
        0x33 => Some("VVC"),
        _ => None,
    }
}

/// What a recording of the draft period is told.
fn draft(piece: &Piece) -> String {
    let known = "the registration is 'AV1 ', that of the 2018 draft";
    let again = library::check(Edition::Draft, &piece.bytes).segment;
    match again.number {
        0 => format!("{known}: refused as current, and accepted by --edition draft"),
        number => format!(
            "{known}: --edition draft refuses it too, by {number} at {}",
            again.place
        ),
    }
}

/// 29: a PES as others begin it.
pub fn start(piece: &Piece, place: usize) -> Option<String> {
    let here = packet(&piece.bytes, place);
    if !here.start() {
        return Some(super::TRIM.to_string());
    }
    match byte(here.payload(), 3) {
        0xE0..=0xEF => Some(
            "the stream_id is that of a video stream; AV1 is carried as private_stream_1"
                .to_string(),
        ),
        _ => None,
    }
}

/// 30: a unit without times.
pub fn untimed(piece: &Piece, edition: Edition) -> Option<String> {
    if edition == Edition::Draft {
        return None;
    }
    let again = library::check(Edition::Draft, &piece.bytes).segment;
    if again.number == 0 {
        Some("refused as current, a draft recording: --edition draft accepts it".to_string())
    } else {
        None
    }
}
