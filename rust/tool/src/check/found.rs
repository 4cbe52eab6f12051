//! What stands where a segment was refused.

mod clock;
mod counter;
mod tables;

use super::piece::Piece;
use super::{is_of_unit, listing};
use crate::library::{Edition, Refused};
use crate::reading::finding::Finding;
use crate::reading::packet::{SIZE, packet};
use crate::reading::pes;
use crate::reading::pid;
use crate::reading::scan::{Scan, pes_bytes, unit_bytes};

/// The lines of what was found at the place of a refusal.
pub fn findings(piece: &Piece, edition: Edition, refused: Refused) -> Vec<Finding> {
    let place = refused.place as usize;
    let scan = || Scan::over(&piece.bytes, place, edition);
    match refused.number {
        20 => length(piece),
        21..=23 => packet(&piece.bytes, place).findings(),
        24 => counter::findings(piece, place, &scan()),
        25 => tables::pat(piece, place, &scan()),
        26..=28 => tables::pmt(piece, place, &scan()),
        29 | 30 => pes_start(piece, place, &scan()),
        31 => clock::findings(piece, place, &scan()),
        32 => pes_length(piece, place),
        33 => tables::missing(piece, &scan()),
        34 => vec![Finding::new(
            "units before this packet",
            scan().starts.len(),
        )],
        number if is_of_unit(number) => unit(piece, place),
        _ => Vec::new(),
    }
}

fn length(piece: &Piece) -> Vec<Finding> {
    let whole = piece
        .whole
        .map_or("more than is read".to_string(), |whole| whole.to_string());
    let (packets, rest) = (piece.bytes.len() / SIZE, piece.bytes.len() % SIZE);
    vec![
        Finding::new("bytes of the file", whole),
        Finding::new("whole packets of 188 bytes", packets)
            .wrong_if(packets > 65_535, "at most 65,535")
            .wrong_if(packets == 0, "at least one"),
        Finding::new("bytes behind them", rest).wrong_if(rest != 0, "none is due"),
    ]
}

fn pes_start(piece: &Piece, place: usize, scan: &Scan) -> Vec<Finding> {
    let here = packet(&piece.bytes, place);
    if here.start() {
        let mut found = vec![Finding::new("PID", pid(here.pid()))];
        found.extend(pes::findings(here.payload(), false));
        return found;
    }
    let behind = (place..piece.origin.len()).find(|index| {
        let later = packet(&piece.bytes, *index);
        later.pid() == here.pid() && later.start() && later.has_payload()
    });
    let next = behind.map_or("none".to_string(), |index| {
        piece.packet(index as u64).to_string()
    });
    vec![
        Finding::new("PID", pid(here.pid())),
        Finding::new("payload_unit_start_indicator", 0).wrong("no PES has begun yet"),
        Finding::new("PES starts before", scan.starts.len()),
        Finding::new("first start behind, in packet", next),
    ]
}

fn pes_length(piece: &Piece, place: usize) -> Vec<Finding> {
    let bytes = pes_bytes(&piece.bytes, place);
    let stated = usize::from(pes::read(&bytes).length);
    let counted = bytes.len().saturating_sub(6);
    let words = if counted < stated {
        format!("{} bytes too few", stated - counted)
    } else {
        format!("{} bytes too many", counted - stated)
    };
    vec![
        Finding::new("PES_packet_length", stated),
        Finding::new("bytes behind that field", counted).wrong(words),
    ]
}

fn unit(piece: &Piece, place: usize) -> Vec<Finding> {
    let carried = unit_bytes(&piece.bytes, place);
    let mut found = vec![Finding::new(
        "unit",
        format!("{} bytes as carried", carried.len()),
    )];
    found.extend(listing::list(&carried).findings(&carried));
    found
}
