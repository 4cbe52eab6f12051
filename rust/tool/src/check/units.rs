//! A line a unit of an accepted segment.

use super::listing;
use crate::json::Json;
use crate::library::{Checked, NO_TIME};
use crate::reading::obu::type_name;
use crate::reading::scan::Scan;
use crate::reading::{seconds, time};

pub struct UnitLine {
    pub index: usize,
    pub bytes: usize,
    pub pts: u64,
    pub dts: u64,
    /// The packet of the piece that began its PES, by the tool's own reading.
    pub first: Option<usize>,
    pub dropped: usize,
    /// Type and length of each OBU.
    pub obus: Vec<(u8, usize)>,
}

/// The units of a checked segment.
pub fn lines(checked: &Checked, scan: &Scan) -> Vec<UnitLine> {
    let units = checked.units();
    let lines = units.iter().enumerate().map(|(index, unit)| {
        let listing = listing::list(unit.bytes);
        UnitLine {
            index,
            bytes: unit.bytes.len(),
            pts: unit.pts,
            dts: unit.dts,
            first: scan.starts.get(index).copied(),
            dropped: listing.verdict.map_or(0, |figures| figures.dropped),
            obus: listing
                .obus
                .iter()
                .map(|obu| (obu.header.kind, obu.obu.len()))
                .collect(),
        }
    });
    lines.collect()
}

/// A time as it is shown, where there is one.
pub fn shown_time(ticks: u64) -> String {
    if ticks == NO_TIME {
        "none".to_string()
    } else {
        time(ticks)
    }
}

/// A time and its seconds, null where there is none.
fn json_time(ticks: u64) -> (Json, Json) {
    if ticks == NO_TIME {
        (Json::Null, Json::Null)
    } else {
        (ticks.into(), Json::Decimal(seconds(ticks, 90_000)))
    }
}

impl UnitLine {
    pub fn text(&self, packet: Option<u64>) -> String {
        let types: Vec<String> = self.obus.iter().map(|(kind, _)| kind.to_string()).collect();
        let first = packet.map_or("?".to_string(), |packet| packet.to_string());
        format!(
            "unit {}  bytes {}  PTS {}  DTS {}  OBU types {}  dropped {}  first packet {first}",
            self.index,
            self.bytes,
            shown_time(self.pts),
            shown_time(self.dts),
            types.join(" "),
            self.dropped,
        )
    }

    pub fn json(&self, packet: Option<u64>) -> Json {
        let (pts, pts_seconds) = json_time(self.pts);
        let (dts, dts_seconds) = json_time(self.dts);
        let obus = Json::list(&self.obus, |(kind, length)| {
            Json::Object(vec![
                ("type", Json::Number(u64::from(*kind))),
                ("name", Json::text(type_name(*kind))),
                ("bytes", (*length).into()),
            ])
        });
        Json::Object(vec![
            ("index", self.index.into()),
            ("bytes", self.bytes.into()),
            ("pts", pts),
            ("pts_seconds", pts_seconds),
            ("dts", dts),
            ("dts_seconds", dts_seconds),
            ("dropped", self.dropped.into()),
            ("first_packet", Json::option(packet.map(Json::Number))),
            ("obus", obus),
        ])
    }
}
