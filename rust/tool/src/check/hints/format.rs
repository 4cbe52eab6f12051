//! Files that are no transport stream of 188 bytes a packet.

use crate::check::piece::Piece;
use crate::check::trim::aligned;
use crate::reading::packet::SIZE;

/// What a file is that is no transport stream.
pub fn other(bytes: &[u8]) -> Option<String> {
    let is = |at: usize, magic: &[u8]| bytes.get(at..at + magic.len()) == Some(magic);
    if aligned(bytes, SIZE).is_some() {
        return None;
    }
    if aligned(bytes, 192).is_some() {
        return Some(
            "0x47 stands every 192 bytes: these are M2TS packets, with four bytes of arrival time \
             before each; take those out first"
                .to_string(),
        );
    }
    if aligned(bytes, 204).is_some() {
        return Some(
            "0x47 stands every 204 bytes: there are 16 bytes of Reed-Solomon code behind each \
             packet; take those out first"
                .to_string(),
        );
    }
    let name = if is(0, b"DKIF") {
        "an IVF file"
    } else if is(4, b"ftyp") {
        "an MP4 file"
    } else if is(0, b"\x1A\x45\xDF\xA3") {
        "a Matroska or WebM file"
    } else if is(0, b"\x12\x00\x0A") {
        "a file of OBUs"
    } else if is(0, b"\x00\x00\x01\xBA") {
        "a program stream"
    } else if is(0, b"\x00\x00\x01") {
        "a carried unit, or another elementary stream"
    } else {
        return None;
    };
    Some(format!("this seems to be {name}, and no transport stream"))
}

/// Where the sync byte stands again.
pub fn sync(piece: &Piece, place: usize) -> Option<String> {
    if let Some(words) = other(&piece.bytes) {
        return Some(words);
    }
    let at = aligned(&piece.bytes[place * SIZE..], SIZE)?;
    if place == 0 {
        let words =
            format!("the first packet begins at byte {at}: --trim leaves out what is before");
        return Some(words);
    }
    let byte = piece.byte(place as u64) + at as u64;
    Some(format!(
        "from byte {byte} on 0x47 stands every 188 bytes again: bytes got lost or came in before"
    ))
}
