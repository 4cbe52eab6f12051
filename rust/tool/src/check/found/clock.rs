//! 31: where a PCR was looked for.

use crate::check::piece::Piece;
use crate::reading::finding::Finding;
use crate::reading::packet::packet;
use crate::reading::pid;
use crate::reading::scan::Scan;

pub fn findings(piece: &Piece, place: usize, scan: &Scan) -> Vec<Finding> {
    let table = match &scan.pmt {
        Some(table) => table,
        None => return Vec::new(),
    };
    let clock = table.read.pcr_pid;
    let has = |index: &usize| {
        let here = packet(&piece.bytes, *index);
        here.pid() == clock && here.pcr().is_some()
    };
    let shown = |index: Option<usize>| {
        index.map_or("none".to_string(), |index| {
            format!("in packet {}", piece.packet(index as u64))
        })
    };
    let before = (0..=table.packet).rev().find(has);
    let behind = (place + 1..piece.origin.len()).find(has);
    let first = piece.packet(table.packet as u64);
    vec![
        Finding::new("PMT", format!("in packet {first}")),
        Finding::new("PCR_PID", pid(clock)).wrong_if(clock == 0x1FFF, "the PMT names no PCR PID"),
        Finding::new("last PCR up to the PMT", shown(before)),
        Finding::new("PCR between the PMT and this payload", "none").wrong("one is due"),
        Finding::new("first PCR behind", shown(behind)),
    ]
}
