//! Units put together as decoders take them.

use crate::check::Report;
use crate::library;
use crate::reading::obu;
use crate::reading::sequence;

/// A temporal unit: OBUs with sizes, a delimiter first, and its PTS.
struct Temporal {
    bytes: Vec<u8>,
    pts: u64,
}

const DELIMITER: [u8; 2] = [0x12, 0x00];

/// The OBUs of each unit of the segment, with its PTS.
fn read(report: &Report) -> Vec<(Vec<Vec<u8>>, u64)> {
    let units = report.checked.units();
    let read = units.iter().map(|unit| {
        // Reading accepts each unit of an accepted segment.
        (library::read_unit(unit.bytes).unwrap_or_default(), unit.pts)
    });
    read.collect()
}

fn delimited(obus: &[Vec<u8>]) -> bool {
    obus.first()
        .map_or(false, |first| obu::read(first).kind == 2)
}

fn shows(obus: &[Vec<u8>]) -> bool {
    obus.iter()
        .any(|bytes| obu::read(bytes).shows(bytes) == Some(true))
}

/// Where the stream has delimiters they divide it; else a temporal unit ends with a shown frame,
/// and with a new PTS.
fn temporal_units(report: &Report) -> Vec<Temporal> {
    let units = read(report);
    let divided = units.iter().any(|(obus, _)| delimited(obus));
    let mut found: Vec<Temporal> = Vec::new();
    let mut shown = true;
    for (obus, pts) in &units {
        let ended = match found.last() {
            None => true,
            Some(last) => shown && last.pts != *pts,
        };
        let begins = found.is_empty() || if divided { delimited(obus) } else { ended };
        if begins {
            found.push(Temporal {
                bytes: DELIMITER.to_vec(),
                pts: *pts,
            });
        }
        if let Some(temporal) = found.last_mut() {
            temporal.pts = *pts;
            let content = obus.iter().filter(|bytes| obu::read(bytes).kind != 2);
            temporal
                .bytes
                .extend(content.flat_map(|bytes| obu::with_size(bytes)));
        }
        shown = shows(obus);
    }
    found
}

/// All temporal units, one behind the other.
pub fn obus(report: &Report) -> Vec<u8> {
    let found = temporal_units(report);
    found
        .iter()
        .flat_map(|temporal| &temporal.bytes)
        .copied()
        .collect()
}

/// An IVF file with a time base of 90 kHz.
pub fn ivf(report: &Report) -> Vec<u8> {
    let found = temporal_units(report);
    let (width, height) = size(report);
    let mut file = b"DKIF\0\0\x20\0AV01".to_vec();
    file.extend((width as u16).to_le_bytes());
    file.extend((height as u16).to_le_bytes());
    file.extend(90_000u32.to_le_bytes());
    file.extend(1u32.to_le_bytes());
    file.extend((found.len() as u32).to_le_bytes());
    file.extend([0; 4]);
    for temporal in &found {
        file.extend((temporal.bytes.len() as u32).to_le_bytes());
        file.extend(temporal.pts.to_le_bytes());
        file.extend(&temporal.bytes);
    }
    file
}

/// The size of the first sequence header, for the file's header.
fn size(report: &Report) -> (u64, u64) {
    let units = read(report);
    let mut obus = units.iter().flat_map(|(obus, _)| obus);
    let header = obus.find_map(|bytes| sequence::of_obu(bytes));
    header.map_or((0, 0), |header| (header.width, header.height))
}
