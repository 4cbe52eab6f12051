//! Units that others write, and the errors that are made in writing them.

use crate::check::listing::{self, Listing};
use crate::check::piece::Piece;
use crate::library::Refused;
use crate::reading::obu;
use crate::reading::scan::unit_bytes;

pub fn hints(piece: &Piece, place: usize) -> Option<String> {
    of_unit(&unit_bytes(&piece.bytes, place))
}

/// The hint of a carried unit that is refused.
pub fn of_unit(carried: &[u8]) -> Option<String> {
    let listing = listing::list(carried);
    match listing.verdict {
        Err(refused) => match refused.number {
            5 => trimmed(&listing, refused),
            7 => frames(&listing),
            9 => head(carried),
            10 => Some(
                "the OBU was carried without escaping, or 03 was put in by another rule; \
                 av1ts escape shows the escaped form"
                    .to_string(),
            ),
            _ => None,
        },
        Ok(_) => None,
    }
}

/// 5: zeros that were taken away at an OBU's end.
fn trimmed(listing: &Listing, refused: Refused) -> Option<String> {
    let line = listing.obus.get(refused.place as usize)?;
    let missing = match line.header.size {
        Some(size) => size.checked_sub(line.header.content(&line.obu).len() as u64)?,
        None if line.header.has_size && line.header.width < 8 => 1,
        None => return None,
    };
    if (1..=3).contains(&missing) {
        Some(
            "closing zeros belong to the OBU: were they trimmed before the next start code?"
                .to_string(),
        )
    } else {
        None
    }
}

/// 7: more than one frame.
fn frames(listing: &Listing) -> Option<String> {
    let frames = listing
        .obus
        .iter()
        .filter(|obu| matches!(obu.header.kind, 3 | 6))
        .count();
    match frames {
        0 => Some("there is no frame in this PES".to_string()),
        1 => None,
        count => Some(format!(
            "{count} frames in one PES: a PES carries one frame with what precedes it, not a \
             temporal unit"
        )),
    }
}

/// 9: how a unit begins that has no start code.
fn head(carried: &[u8]) -> Option<String> {
    if carried.starts_with(&[0, 0, 0, 1]) {
        return Some("four-byte start codes: here a start code is 00 00 01".to_string());
    }
    let header = obu::read(carried);
    let fits = header
        .size
        .map_or(false, |size| size < carried.len() as u64);
    if !header.forbidden && header.has_size && fits {
        return Some(
            "the PES begins with an OBU as files have it: no start code is before it, and it is \
             not escaped"
                .to_string(),
        );
    }
    None
}
