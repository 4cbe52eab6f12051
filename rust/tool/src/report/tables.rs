//! The tables taken apart.

use super::markup::{findings, section as part};
use crate::check::Report;
use crate::reading::packet::packet;
use crate::reading::section::Section;
use crate::reading::{pat, pmt};

pub fn section(report: &Report) -> String {
    let scan = &report.scan;
    let bytes = &report.piece.bytes;
    let mut content = String::new();
    if let Some(table) = &scan.pat {
        let here = packet(bytes, table.packet);
        let found = pat::findings(Section::new(here.payload()), here.start());
        let place = report.piece.packet(table.packet as u64);
        content.push_str(&format!(
            "<h3>PAT, in packet {place}</h3>\n{}",
            findings(&found)
        ));
        if let Some(map) = &scan.pmt {
            let here = packet(bytes, map.packet);
            let (program, map_pid) = (table.read.program, table.read.map_pid);
            let section = Section::new(here.payload());
            let found = pmt::findings(section, here.start(), program, map_pid, scan.edition);
            let place = report.piece.packet(map.packet as u64);
            content.push_str(&format!(
                "<h3>PMT, in packet {place}</h3>\n{}",
                findings(&found)
            ));
        }
    }
    if content.is_empty() {
        return part("tables", "Tables", "There is no PAT.", "");
    }
    part("tables", "Tables", "", &content)
}
