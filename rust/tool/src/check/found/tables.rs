//! 25 to 28 and 33: the tables taken apart.

use crate::check::piece::Piece;
use crate::reading::finding::Finding;
use crate::reading::packet::packet;
use crate::reading::scan::{Scan, Table};
use crate::reading::section::Section;
use crate::reading::{pat as pats, pid, pmt as pmts};
use std::collections::BTreeMap;

pub fn pat(piece: &Piece, place: usize, scan: &Scan) -> Vec<Finding> {
    let here = packet(&piece.bytes, place);
    let section = Section::new(here.payload());
    let mut found = later(piece, section, &scan.pat);
    found.extend(pats::findings(section, here.start()));
    found
}

pub fn pmt(piece: &Piece, place: usize, scan: &Scan) -> Vec<Finding> {
    let here = packet(&piece.bytes, place);
    let section = Section::new(here.payload());
    let mut found = later(piece, section, &scan.pmt);
    if let Some(table) = &scan.pat {
        let pat = table.read;
        let lines = pmts::findings(
            section,
            here.start(),
            pat.program,
            pat.map_pid,
            scan.edition,
        );
        found.extend(lines);
    }
    found
}

/// Where a later section differs from the first.
fn later<T>(piece: &Piece, section: Section, first: &Option<Table<T>>) -> Vec<Finding> {
    let difference = first
        .as_ref()
        .and_then(|table| section.difference(&table.bytes, piece.packet(table.packet as u64)));
    difference.into_iter().collect()
}

/// 33: which table is missing, and which PIDs there are.
pub fn missing(piece: &Piece, scan: &Scan) -> Vec<Finding> {
    let mut found = Vec::new();
    match &scan.pat {
        None => found.push(Finding::new("PAT", "none").wrong("no section on PID 0")),
        Some(table) => {
            let place = piece.packet(table.packet as u64);
            found.push(Finding::new("PAT", format!("in packet {place}")));
            let map_pid = pid(table.read.map_pid);
            found.push(Finding::new("PMT", "none").wrong(format!("no section on PID {map_pid}")));
        }
    }
    let mut counts: BTreeMap<u16, usize> = BTreeMap::new();
    for index in 0..piece.origin.len() {
        *counts.entry(packet(&piece.bytes, index).pid()).or_default() += 1;
    }
    let mut most: Vec<(u16, usize)> = counts.into_iter().collect();
    most.sort_by_key(|(_, count)| std::cmp::Reverse(*count));
    for (number, count) in most.iter().take(8) {
        found.push(Finding::new(
            format!("packets on PID {}", pid(*number)),
            count,
        ));
    }
    found
}
