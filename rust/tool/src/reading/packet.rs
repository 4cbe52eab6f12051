//! One packet taken apart.

use super::finding::Finding;
use super::{byte, pair, part, pid, seconds};

pub const SIZE: usize = 188;
pub const NULL: u16 = 0x1FFF;

/// A packet's bytes, at most 188 of them.
#[derive(Clone, Copy)]
pub struct Packet<'a>(pub &'a [u8]);

/// The packet of an index; what is behind the end has no bytes.
pub fn packet(segment: &[u8], index: usize) -> Packet<'_> {
    Packet(part(segment, index * SIZE, (index + 1) * SIZE))
}

impl<'a> Packet<'a> {
    pub fn pid(&self) -> u16 {
        pair(self.0, 1) & 0x1FFF
    }

    /// payload_unit_start_indicator
    pub fn start(&self) -> bool {
        byte(self.0, 1) & 0x40 != 0
    }

    pub fn counter(&self) -> u8 {
        byte(self.0, 3) & 0x0F
    }

    /// The bits of the adaptation control.
    pub fn control(&self) -> u8 {
        byte(self.0, 3) >> 4 & 3
    }

    pub fn has_payload(&self) -> bool {
        self.control() & 1 == 1
    }

    /// The adaptation field's length, where there is such a field.
    fn field_length(&self) -> Option<usize> {
        if self.control() & 2 == 2 {
            Some(usize::from(byte(self.0, 4)))
        } else {
            None
        }
    }

    /// The adaptation field's flags; 0 where it has none.
    pub fn flags(&self) -> u8 {
        match self.field_length() {
            Some(1..) => byte(self.0, 5),
            _ => 0,
        }
    }

    pub fn discontinuity(&self) -> bool {
        self.flags() & 0x80 != 0
    }

    /// The PCR in ticks of 27 MHz.
    pub fn pcr(&self) -> Option<u64> {
        let (base, extension) = self.pcr_parts()?;
        if self.pid() == NULL || self.field_length() < Some(7) {
            return None;
        }
        Some(base * 300 + extension)
    }

    fn pcr_parts(&self) -> Option<(u64, u64)> {
        if self.flags() & 0x10 == 0 {
            return None;
        }
        let six = (6..12).fold(0, |sum, at| sum << 8 | u64::from(byte(self.0, at)));
        Some((six >> 15, six & 0x1FF))
    }

    /// What follows the header and the adaptation field.
    pub fn payload(&self) -> &'a [u8] {
        if !self.has_payload() {
            return &[];
        }
        part(self.0, self.payload_at(), SIZE)
    }

    /// Where the payload begins.
    pub fn payload_at(&self) -> usize {
        4 + self.field_length().map_or(0, |length| 1 + length)
    }

    /// Whether this is another packet sent again: all bytes equal but those of the PCR.
    pub fn repeats(&self, other: Packet) -> bool {
        let same = |range: std::ops::Range<usize>| {
            part(self.0, range.start, range.end) == part(other.0, range.start, range.end)
        };
        if self.flags() & 0x10 != 0 {
            same(0..6) && same(12..SIZE)
        } else {
            self.0 == other.0
        }
    }

    /// The header and the adaptation field, field by field.
    pub fn findings(&self) -> Vec<Finding> {
        let bits = byte(self.0, 1);
        let scrambling = byte(self.0, 3) >> 6;
        let counts = self.pid() != NULL;
        let sync = byte(self.0, 0);
        let mut found = vec![
            Finding::new("sync_byte", format!("0x{sync:02X}"))
                .wrong_if(sync != 0x47, "0x47 is due"),
            Finding::new("transport_error_indicator", bits >> 7)
                .wrong_if(bits >> 7 == 1, "the receiver could not correct it"),
            Finding::new("payload_unit_start_indicator", bits >> 6 & 1),
            Finding::new("transport_priority", bits >> 5 & 1),
            Finding::new("PID", pid(self.pid())),
            Finding::new("transport_scrambling_control", format!("{scrambling:02b}"))
                .wrong_if(counts && scrambling != 0, "scrambled"),
            self.control_finding(counts),
            Finding::new("continuity_counter", self.counter()),
        ];
        if let Some(length) = self.field_length() {
            found.extend(self.field_findings(length, counts));
        }
        found
    }

    fn control_finding(&self, counts: bool) -> Finding {
        let meaning = [
            "reserved",
            "payload",
            "adaptation field",
            "adaptation field and payload",
        ];
        let control = self.control();
        let value = format!("{control:02b} ({})", meaning[usize::from(control)]);
        Finding::new("adaptation_field_control", value)
            .wrong_if(counts && control == 0, "00 is reserved")
    }

    fn field_findings(&self, length: usize, counts: bool) -> Vec<Finding> {
        let only = self.control() == 2;
        let wrong = if only { length != 183 } else { length > 182 };
        let due = if only {
            "183 is due without payload"
        } else {
            "at most 182 with payload"
        };
        let mut found =
            vec![Finding::new("adaptation_field_length", length).wrong_if(counts && wrong, due)];
        if length == 0 {
            return found;
        }
        let flags = self.flags();
        found.push(Finding::new(
            "adaptation flags",
            format!("0x{flags:02X} ({})", named(flags)),
        ));
        found.extend(self.pcr_finding(length, counts));
        found
    }

    fn pcr_finding(&self, length: usize, counts: bool) -> Option<Finding> {
        let (base, extension) = self.pcr_parts()?;
        let ticks = base * 300 + extension;
        let time = seconds(ticks, 27_000_000);
        let finding = Finding::new(
            "PCR",
            format!("{base} * 300 + {extension} = {ticks} ({time} s)"),
        );
        Some(
            finding
                .wrong_if(counts && extension > 299, "the extension is above 299")
                .wrong_if(
                    counts && length < 7,
                    "the adaptation field has no room for a PCR",
                ),
        )
    }
}

/// The flags of an adaptation field that are set.
fn named(flags: u8) -> String {
    let names = [
        "discontinuity",
        "random access",
        "elementary stream priority",
        "PCR",
        "OPCR",
        "splicing point",
        "private data",
        "extension",
    ];
    let set = (0..8).filter(|at| flags & 0x80 >> at != 0);
    let set: Vec<&str> = set.map(|at| names[at]).collect();
    if set.is_empty() {
        "none".to_string()
    } else {
        set.join(", ")
    }
}
