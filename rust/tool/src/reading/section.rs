//! What PAT and PMT have in common.

use super::crc::crc;
use super::finding::Finding;
use super::{byte, pair, part};

/// A section in a packet's payload: from its table_id on.
#[derive(Clone, Copy)]
pub struct Section<'a> {
    payload: &'a [u8],
}

impl<'a> Section<'a> {
    pub fn new(payload: &'a [u8]) -> Section<'a> {
        Section { payload }
    }

    /// Where the section begins, by the pointer.
    fn at(&self) -> usize {
        1 + usize::from(byte(self.payload, 0))
    }

    /// The section's length field.
    pub fn length(&self) -> usize {
        usize::from(pair(self.payload, self.at() + 1) & 0x0FFF)
    }

    /// The section's bytes, as far as there are any in the packet.
    pub fn bytes(&self) -> &'a [u8] {
        part(self.payload, self.at(), self.at() + 3 + self.length())
    }

    /// Whether all of the section stands in the packet.
    pub fn whole(&self) -> bool {
        self.bytes().len() == 3 + self.length() && self.length() >= 9
    }

    /// What stands between the header of eight bytes and the CRC.
    pub fn content(&self) -> &'a [u8] {
        let bytes = self.bytes();
        part(bytes, 8, bytes.len().saturating_sub(4))
    }

    /// transport_stream_id or program_number
    pub fn number(&self) -> u16 {
        pair(self.bytes(), 3)
    }

    /// The lines before the content.
    pub fn front(&self, start: bool, table: u8, number: &str) -> Vec<Finding> {
        let bytes = self.bytes();
        let bits = byte(bytes, 5);
        let pointer = byte(self.payload, 0);
        let id = byte(bytes, 0);
        let syntax = byte(bytes, 1) >> 7;
        vec![
            Finding::new("payload_unit_start_indicator", u8::from(start))
                .wrong_if(!start, "a section begins in every such packet"),
            Finding::new("pointer_field", pointer).wrong_if(pointer != 0, "0 is due"),
            Finding::new("table_id", format!("0x{id:02X}"))
                .wrong_if(id != table, format!("0x{table:02X} is due")),
            Finding::new("section_syntax_indicator", syntax).wrong_if(syntax == 0, "1 is due"),
            Finding::new("section_length", self.length()).wrong_if(
                !self.whole(),
                "the section does not stand whole in this packet",
            ),
            Finding::new(number, self.number()),
            Finding::new("version_number", bits >> 1 & 0x1F),
            Finding::new("current_next_indicator", bits & 1).wrong_if(bits & 1 == 0, "1 is due"),
            Finding::new("section_number", byte(bytes, 6))
                .wrong_if(byte(bytes, 6) != 0, "0 is due"),
            Finding::new("last_section_number", byte(bytes, 7))
                .wrong_if(byte(bytes, 7) != 0, "0 is due"),
        ]
    }

    /// The lines behind the content.
    pub fn back(&self) -> Vec<Finding> {
        let bytes = self.bytes();
        if !self.whole() {
            return Vec::new();
        }
        let at = bytes.len() - 4;
        let found = u32::from(pair(bytes, at)) << 16 | u32::from(pair(bytes, at + 2));
        let due = crc(&bytes[..at]);
        let fill = &self.payload[(self.at() + bytes.len()).min(self.payload.len())..];
        let odd = fill.iter().position(|byte| *byte != 0xFF);
        let mut lines = vec![
            Finding::new("CRC_32", format!("0x{found:08X}"))
                .wrong_if(found != due, format!("0x{due:08X} is due")),
        ];
        if let Some(at) = odd {
            let value = format!("0x{:02X} at byte {at} of {}", fill[at], fill.len());
            lines.push(Finding::new("fill", value).wrong("0xFF is due"));
        }
        lines
    }

    /// Where a section differs from the first one of its kind.
    pub fn difference(&self, first: &[u8], packet: u64) -> Option<Finding> {
        let bytes = self.bytes();
        if bytes == first {
            return None;
        }
        let at = bytes
            .iter()
            .zip(first)
            .position(|(here, there)| here != there);
        let words = match at {
            Some(at) => format!(
                "byte {at}: 0x{:02X} there, 0x{:02X} here",
                first[at], bytes[at]
            ),
            None => format!("{} bytes there, {} here", first.len(), bytes.len()),
        };
        Some(Finding::new(format!("first one, in packet {packet}"), words).wrong("not the same"))
    }
}
