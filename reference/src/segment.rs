//! A segment: its packets in order, its program, and its AV1 access units.

use crate::comparison::{self, Comparison};
use crate::edition::Edition;
use crate::packet::{self, NULL, Packet};
use crate::refusal::Refusal;
use crate::section::{self, Pat, Pmt, Table};
use crate::{pes, unit};
use std::collections::HashMap;

/// "65,535 packets in a segment; 1,024 units in a segment"
pub const MOST_PACKETS: usize = 65_535;
pub const MOST_UNITS: usize = 1024;

/// The lengths of the three outputs: elements, not bytes.
#[derive(Clone, Copy, Debug, PartialEq, Eq)]
pub struct Rooms {
    pub bytes: usize,
    pub lengths: usize,
    pub times: usize,
}

/// "packet totals in five classes by PID at that moment: null, section, AV1, other listed, unlisted"
#[derive(Clone, Copy, Debug, PartialEq, Eq)]
pub enum Class {
    Null,
    Section,
    Av1,
    OtherListed,
    Unlisted,
}

#[derive(Clone, Copy, Debug, Default, PartialEq, Eq)]
pub struct Totals {
    pub null: u64,
    pub section: u64,
    pub av1: u64,
    pub other_listed: u64,
    pub unlisted: u64,
}

impl Totals {
    pub fn add(&mut self, class: Class) {
        match class {
            Class::Null => self.null += 1,
            Class::Section => self.section += 1,
            Class::Av1 => self.av1 += 1,
            Class::OtherListed => self.other_listed += 1,
            Class::Unlisted => self.unlisted += 1,
        }
    }
}

/// A unit as carried, with its times in ticks of 90 kHz; or no times, as the draft has it.
#[derive(Clone, Debug, PartialEq, Eq)]
pub struct Unit {
    pub bytes: Vec<u8>,
    pub pts: u64,
    pub dts: u64,
}

/// "Acceptance gives program number, AV1 PID, unit count and packet totals"; "the answer gains the
/// unit of the first header in stream order that disagrees or is cut short, .. or none".
#[derive(Clone, Debug, PartialEq, Eq)]
pub struct Accepted {
    pub program: u16,
    pub pid: u16,
    pub units: Vec<Unit>,
    pub totals: Totals,
    pub comparison: Option<Comparison>,
}

/// What a sheet says besides of an accepted segment.
#[derive(Clone, Debug, Default, PartialEq, Eq)]
pub struct Listing {
    /// PID and stream_type of each listed stream.
    pub streams: Vec<(u16, u8)>,
    /// The index of the packet that began each unit.
    pub first_packets: Vec<usize>,
}

/// The conditions of 24.
pub const CONDITIONS_24: &[&str] = &[
    "24: PID 0, with payload",
    "24: PID 0, without payload",
    "24: map PID, with payload",
    "24: map PID, without payload",
    "24: AV1 PID, with payload",
    "24: AV1 PID, without payload",
    "24: other listed PID, with payload",
    "24: other listed PID, without payload",
];

/// The conditions of 8.
pub const CONDITIONS_8: &[&str] = &[
    "8: the unit's length",
    "8: the unit's times",
    "8: bytes of a starting packet",
    "8: bytes of a later packet",
];

/// The other conditions of the segment's own rules.
pub const CONDITIONS: &[&str] = &[
    "20: no bytes",
    "20: not a multiple of 188",
    "20: over 65,535 packets",
    "29: before any start",
    "31: no PCR yet",
    "34: a 1,025th unit",
    "32: PES longer than its length",
    "32: PES shorter than its length",
    "33: no PAT",
    "33: no PMT",
];

/// A PES that is open; its unit is the last.
struct Open {
    /// "the index of the packet that began it"
    began: usize,
    header: pes::Header,
}

/// The last packet of a PID.
struct Last {
    bytes: Vec<u8>,
    counter: u8,
    with_payload: bool,
    /// It was a copy of the one before it.
    repeat: bool,
}

/// The check as it stands before a packet. A section that was read is kept with its bytes.
struct Check {
    edition: Edition,
    rooms: Rooms,
    pat: Option<(Vec<u8>, Pat)>,
    pmt: Option<(Vec<u8>, Pmt)>,
    last: HashMap<u16, Last>,
    pcr: bool,
    units: Vec<Unit>,
    listing: Listing,
    bytes: usize,
    open: Option<Open>,
    totals: Totals,
}

/// The check of the current edition.
pub fn check(segment: &[u8], rooms: Rooms) -> Result<Accepted, Refusal> {
    check_edition(0, segment, rooms)
}

/// The check of an edition.
pub fn check_edition(edition: u64, segment: &[u8], rooms: Rooms) -> Result<Accepted, Refusal> {
    check_listing(edition, segment, rooms).map(|(accepted, _)| accepted)
}

/// "Packets in order, each in this sequence, PES closing aside; the first refusal is the verdict."
pub fn check_listing(
    edition: u64,
    segment: &[u8],
    rooms: Rooms,
) -> Result<(Accepted, Listing), Refusal> {
    // "44 at place 0 for an unknown edition, before 20"
    let edition = match Edition::of(edition) {
        Some(edition) => edition,
        _ => return Err(Refusal::new(44, 0, "44: an unknown edition")),
    };
    // "no bytes, not a multiple of 188, or over 65,535 packets (place 0)"
    if segment.is_empty() {
        return Err(Refusal::new(20, 0, "20: no bytes"));
    }
    if segment.len() % packet::SIZE != 0 {
        return Err(Refusal::new(20, 0, "20: not a multiple of 188"));
    }
    let count = segment.len() / packet::SIZE;
    if count > MOST_PACKETS {
        return Err(Refusal::new(20, 0, "20: over 65,535 packets"));
    }
    let mut check = Check {
        edition,
        rooms,
        pat: None,
        pmt: None,
        last: HashMap::new(),
        pcr: false,
        units: Vec::new(),
        listing: Listing::default(),
        bytes: 0,
        open: None,
        totals: Totals::default(),
    };
    for (index, bytes) in segment.chunks(packet::SIZE).enumerate() {
        check.packet(bytes, index)?;
    }
    // "After the last packet the open PES closes first, then 33."
    check.close()?;
    let pat = match check.pat {
        Some((_, pat)) => pat,
        _ => return Err(Refusal::new(33, count, "33: no PAT")),
    };
    let pmt = match check.pmt {
        Some((_, pmt)) => pmt,
        _ => return Err(Refusal::new(33, count, "33: no PMT")),
    };
    let accepted = Accepted {
        comparison: comparison::compare(pmt.video.as_ref(), &check.units),
        program: pat.program,
        pid: pmt.av1_pid,
        units: check.units,
        totals: check.totals,
    };
    let listing = Listing {
        streams: pmt.streams,
        ..check.listing
    };
    Ok((accepted, listing))
}

/// A packet is the second copy of the last packet of its PID.
fn is_copy(packet: &Packet, bytes: &[u8], last: &Last) -> bool {
    let mut first = last.bytes.clone();
    if packet.pcr.is_some() {
        // "all bytes equal but the six of the PCR", which stand behind the flags.
        first[6..12].copy_from_slice(&bytes[6..12]);
    }
    packet.payload.is_some() && last.with_payload && !last.repeat && first == bytes
}

fn wrong_counter(packet: &Packet, class: Class, index: usize) -> Refusal {
    let condition = match (class, packet.pid, packet.payload.is_some()) {
        (Class::Section, 0, true) => "24: PID 0, with payload",
        (Class::Section, 0, false) => "24: PID 0, without payload",
        (Class::Section, _, true) => "24: map PID, with payload",
        (Class::Section, _, false) => "24: map PID, without payload",
        (Class::Av1, _, true) => "24: AV1 PID, with payload",
        (Class::Av1, _, false) => "24: AV1 PID, without payload",
        (_, _, true) => "24: other listed PID, with payload",
        (_, _, false) => "24: other listed PID, without payload",
    };
    Refusal::new(24, index, condition)
}

impl Check {
    fn class(&self, pid: u16) -> Class {
        if pid == NULL {
            return Class::Null;
        }
        if pid == 0 {
            return Class::Section;
        }
        match &self.pat {
            Some((_, pat)) if pat.map_pid == pid => {
                return Class::Section;
            }
            _ => {}
        }
        match &self.pmt {
            Some((_, pmt)) if pmt.pids.contains(&pid) => {
                return if pmt.av1_pid == pid {
                    Class::Av1
                } else {
                    Class::OtherListed
                };
            }
            _ => {}
        }
        Class::Unlisted
    }

    fn packet(&mut self, bytes: &[u8], index: usize) -> Result<(), Refusal> {
        let packet = packet::read(bytes, index)?;
        let class = self.class(packet.pid);
        self.totals.add(class);
        let mut copy = false;
        if class != Class::Null && class != Class::Unlisted {
            copy = self.counter(&packet, bytes, class, index)?;
        }
        // "A PCR counts for 31 if on the PMT's PCR PID, in a packet after the PMT, at or before the
        // payload; PID 0x1FFF has none."
        match &self.pmt {
            Some((_, pmt)) if pmt.pcr_pid == packet.pid && packet.pcr.is_some() => {
                self.pcr = true;
            }
            _ => {}
        }
        // "The second copy counts in its class, adds no bytes to a unit and no section, and starts or
        // closes no PES."
        if copy || packet.payload.is_none() {
            return Ok(());
        }
        match class {
            Class::Section if packet.pid == 0 => self.pat(&packet, index),
            Class::Section => self.pmt(&packet, index),
            Class::Av1 => self.av1(&packet, index),
            Class::OtherListed | Class::Unlisted | Class::Null => Ok(()),
        }
    }

    /// "Counter: a PID's first packet sets it, for PIDs named by a section the first after that
    /// section; then one more modulo 16 with payload, the same without; any value where
    /// discontinuity_indicator is 1." And "a packet with payload" may "be sent twice in a row on its
    /// PID, same counter, all bytes equal but the six of the PCR"; "a packet with it at 1 is no copy"
    /// and "A third copy is 24". Answers whether the packet is a copy.
    fn counter(
        &mut self,
        packet: &Packet,
        bytes: &[u8],
        class: Class,
        index: usize,
    ) -> Result<bool, Refusal> {
        let with_payload = packet.payload.is_some();
        let mut this = Last {
            bytes: bytes.to_vec(),
            counter: packet.counter,
            with_payload,
            repeat: false,
        };
        match self.last.get(&packet.pid) {
            Some(last) if !packet.discontinuity => {
                let step = u8::from(with_payload);
                if packet.counter != (last.counter + step) % 16 {
                    if !is_copy(packet, bytes, last) {
                        return Err(wrong_counter(packet, class, index));
                    }
                    this.repeat = true;
                }
            }
            _ => {}
        }
        let copy = this.repeat;
        self.last.insert(packet.pid, this);
        Ok(copy)
    }

    fn pat(&mut self, packet: &Packet, index: usize) -> Result<(), Refusal> {
        let section = section::section(Table::Pat, packet, index)?;
        if let Some((first, _)) = &self.pat {
            return section::later(Table::Pat, section, first, index);
        }
        let pat = section::pat(section, index)?;
        self.pat = Some((section.to_vec(), pat));
        Ok(())
    }

    fn pmt(&mut self, packet: &Packet, index: usize) -> Result<(), Refusal> {
        let section = section::section(Table::Pmt, packet, index)?;
        if let Some((first, _)) = &self.pmt {
            return section::later(Table::Pmt, section, first, index);
        }
        let (_, pat) = self.pat.as_ref().expect("the map PID is the PAT's");
        let pmt = section::pmt(section, pat, self.edition, index)?;
        self.pmt = Some((section.to_vec(), pmt));
        Ok(())
    }

    /// A packet with payload on the AV1 PID. "A packet starts a PES where it has payload and payload
    /// start 1."
    fn av1(&mut self, packet: &Packet, index: usize) -> Result<(), Refusal> {
        let payload = packet.payload.expect("only a packet with payload is read");
        if packet.payload_start {
            // "A PES closes ... when its PID's next starting packet has passed 24"
            self.close()?;
            return self.start(payload, index);
        }
        if self.open.is_none() {
            return Err(Refusal::new(29, index, "29: before any start"));
        }
        // A PES that is open has started after a PCR: 31 cannot be here.
        if self.bytes + payload.len() > self.rooms.bytes {
            return Err(Refusal::new(8, index, "8: bytes of a later packet"));
        }
        self.add(payload);
        Ok(())
    }

    /// "Within a starting packet 29 comes before 30, then 31, 34, 8."
    fn start(&mut self, payload: &[u8], index: usize) -> Result<(), Refusal> {
        let header = pes::header(payload, self.edition, index)?;
        if !self.pcr {
            return Err(Refusal::new(31, index, "31: no PCR yet"));
        }
        if self.units.len() == MOST_UNITS {
            return Err(Refusal::new(34, index, "34: a 1,025th unit"));
        }
        let data = &payload[header.size..];
        let units = self.units.len() + 1;
        if units > self.rooms.lengths {
            return Err(Refusal::new(8, index, "8: the unit's length"));
        }
        if 2 * units > self.rooms.times {
            return Err(Refusal::new(8, index, "8: the unit's times"));
        }
        if self.bytes + data.len() > self.rooms.bytes {
            return Err(Refusal::new(8, index, "8: bytes of a starting packet"));
        }
        self.units.push(Unit {
            bytes: Vec::new(),
            pts: header.pts,
            dts: header.dts,
        });
        self.listing.first_packets.push(index);
        self.open = Some(Open {
            began: index,
            header,
        });
        self.add(data);
        Ok(())
    }

    fn add(&mut self, data: &[u8]) {
        let unit = self.units.last_mut().expect("an open PES has a unit");
        unit.bytes.extend_from_slice(data);
        self.bytes += data.len();
    }

    /// "then 32 is tried, then the reading of its unit (1 to 7, 9, 10), with the index of the packet
    /// that began it." And 42: "a segment's reading gives it too".
    fn close(&mut self) -> Result<(), Refusal> {
        let open = match self.open.take() {
            Some(open) => open,
            _ => return Ok(()),
        };
        let unit = self.units.last().expect("an open PES has a unit");
        // "PES length not 0 and not the number of PES bytes after that field", which has six bytes
        // up to its end.
        let after = open.header.size - 6 + unit.bytes.len();
        if open.header.length != 0 {
            if after > open.header.length {
                return Err(Refusal::new(
                    32,
                    open.began,
                    "32: PES longer than its length",
                ));
            }
            if after < open.header.length {
                return Err(Refusal::new(
                    32,
                    open.began,
                    "32: PES shorter than its length",
                ));
            }
        }
        match unit::accept(&unit.bytes) {
            Ok(_) => Ok(()),
            Err(refusal) => Err(Refusal {
                place: open.began as u64,
                ..refusal
            }),
        }
    }
}
