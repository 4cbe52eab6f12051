//! What may help, where the bytes say more than the rule.

mod format;
mod streams;
mod unit;

pub use unit::of_unit;

use super::is_of_unit;
use super::piece::Piece;
use crate::library::{Edition, Refused};
use crate::reading::packet::SIZE;

/// The hints of a refusal, mostly none.
pub fn hints(piece: &Piece, edition: Edition, refused: Refused) -> Vec<String> {
    let place = refused.place as usize;
    let mut hints = Vec::new();
    match refused.number {
        20 => hints.extend(length(piece)),
        21 => hints.extend(format::sync(piece, place)),
        25 => hints.extend(streams::programs(piece, place)),
        28 => hints.extend(streams::av1(piece, place, edition)),
        29 => hints.extend(streams::start(piece, place)),
        30 => hints.extend(streams::untimed(piece, edition)),
        31 => hints.push(TRIM.to_string()),
        33 => hints.extend(format::other(&piece.bytes)),
        34 => hints.push(cut(piece, refused.place)),
        number if is_of_unit(number) => hints.extend(unit::hints(piece, place)),
        _ => {}
    }
    hints
}

/// Said where a cut of a longer stream may be the reason.
pub const TRIM: &str =
    "where this is a cut of a longer stream: --trim begins with a PES that is whole";

fn length(piece: &Piece) -> Vec<String> {
    let mut hints: Vec<String> = format::other(&piece.bytes).into_iter().collect();
    if hints.is_empty() && piece.bytes.len() > 65_535 * SIZE {
        hints.push(cut(piece, 65_535));
    }
    if hints.is_empty() && piece.bytes.len() % SIZE != 0 {
        hints.push("--trim leaves out what is no whole packet".to_string());
    }
    hints
}

/// How a longer file is checked in parts.
fn cut(piece: &Piece, count: u64) -> String {
    let from = piece.packet(0);
    format!(
        "check it in parts: --packets {from}..{0}, then --packets {0}.. --trim",
        from + count
    )
}
