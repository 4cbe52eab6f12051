//! Segments made from the description of their packets, right or wrong.
//!
//! Nothing here is used by the check: it is the other way round.

use crate::crc::crc;
use crate::descriptor::REGISTRATION;
use crate::packet::{NULL, SIZE};
use crate::section::{PAT_TABLE, PMT_TABLE};
use std::collections::HashMap;

/// Bytes of a packet behind its header.
pub const BEHIND_HEADER: usize = SIZE - 4;

/// A section without its CRC, which is put behind it.
#[derive(Clone, Debug)]
pub struct Section {
    pub pointer: u8,
    pub body: Vec<u8>,
    /// Bits of the CRC that are turned over.
    pub crc_flip: u32,
}

impl Section {
    pub fn new(body: Vec<u8>) -> Section {
        Section {
            pointer: 0,
            body,
            crc_flip: 0,
        }
    }

    /// Sets the section's length to what it is.
    pub fn set_length(&mut self) {
        let length = self.body.len() - 3 + 4;
        self.body[1] = self.body[1] & 0xF0 | (length >> 8) as u8;
        self.body[2] = length as u8;
    }

    /// Pointer, section and CRC.
    pub fn bytes(&self) -> Vec<u8> {
        let mut bytes = vec![self.pointer];
        bytes.extend_from_slice(&self.body);
        bytes.extend_from_slice(&(crc(&self.body) ^ self.crc_flip).to_be_bytes());
        bytes
    }
}

/// What a packet carries.
#[derive(Clone, Debug)]
pub enum Load {
    /// No payload.
    Nothing,
    /// A payload of one to 184 bytes; what is left is an adaptation field.
    Bytes(Vec<u8>),
    /// A section; what is left is filled with FF.
    Section(Section),
}

/// A packet's description.
#[derive(Clone, Debug)]
pub struct Packet {
    pub pid: u16,
    pub start: bool,
    pub load: Load,
    /// The adaptation field's flags, but the PCR flag.
    pub flags: u8,
    /// Base and extension.
    pub pcr: Option<(u64, u64)>,
    /// The least size of the adaptation field, its length byte included.
    pub field: usize,
    /// What fills the adaptation field.
    pub stuffing: u8,
    /// The counter, where it is not the PID's next.
    pub counter: Option<u8>,
    /// Bytes of the packet that are set last of all.
    pub patches: Vec<(usize, u8)>,
}

impl Packet {
    pub fn new(pid: u16, start: bool, load: Load) -> Packet {
        Packet {
            pid,
            start,
            load,
            flags: 0,
            pcr: None,
            field: 0,
            stuffing: 0xFF,
            counter: None,
            patches: Vec::new(),
        }
    }

    pub fn section(pid: u16, body: Vec<u8>) -> Packet {
        Packet::new(pid, true, Load::Section(Section::new(body)))
    }

    /// A packet without payload that has a PCR: its base and its extension.
    pub fn clock(pid: u16, pcr: (u64, u64)) -> Packet {
        let mut packet = Packet::new(pid, false, Load::Nothing);
        packet.pcr = Some(pcr);
        packet
    }

    pub fn null() -> Packet {
        Packet::new(NULL, false, Load::Bytes(vec![0xFF; BEHIND_HEADER]))
    }

    /// The least size of the adaptation field with all that it holds.
    pub fn least_field(&self) -> usize {
        let held = match (self.pcr, self.flags) {
            (Some(_), _) => 8,
            (None, 0) => 0,
            (None, _) => 2,
        };
        held.max(self.field)
    }

    pub fn has_payload(&self) -> bool {
        !matches!(self.load, Load::Nothing)
    }

    /// The section, for a change.
    pub fn section_mut(&mut self) -> &mut Section {
        match &mut self.load {
            Load::Section(section) => section,
            _ => panic!("the packet has no section"),
        }
    }

    /// The payload's bytes, for a change.
    pub fn bytes_mut(&mut self) -> &mut Vec<u8> {
        match &mut self.load {
            Load::Bytes(bytes) => bytes,
            _ => panic!("the packet has no plain payload"),
        }
    }

    /// The packet's bytes with a counter.
    fn render(&self, counter: u8) -> [u8; SIZE] {
        let mut payload = match &self.load {
            Load::Nothing => Vec::new(),
            Load::Bytes(bytes) => bytes.clone(),
            Load::Section(section) => section.bytes(),
        };
        if matches!(self.load, Load::Section(_)) {
            let room = BEHIND_HEADER - self.least_field();
            payload.resize(payload.len().max(room), 0xFF);
            payload.truncate(room);
        }
        let field = BEHIND_HEADER - payload.len();
        assert!(
            field >= self.least_field(),
            "the packet's payload is too long"
        );
        let control = match (field, self.has_payload()) {
            (_, false) => 0b10,
            (0, true) => 0b01,
            (_, true) => 0b11,
        };
        let mut bytes = [self.stuffing; SIZE];
        bytes[0] = 0x47;
        bytes[1] = u8::from(self.start) << 6 | (self.pid >> 8) as u8;
        bytes[2] = self.pid as u8;
        bytes[3] = control << 4 | counter;
        if field > 0 {
            bytes[4] = (field - 1) as u8;
        }
        if field > 1 {
            bytes[5] = self.flags | u8::from(self.pcr.is_some()) << 4;
        }
        if let Some((base, extension)) = self.pcr {
            let bits = base << 15 | 0x7E00 | extension;
            bytes[6..12].copy_from_slice(&bits.to_be_bytes()[2..]);
        }
        bytes[4 + field..].copy_from_slice(&payload);
        for &(place, byte) in &self.patches {
            bytes[place] = byte;
        }
        bytes
    }
}

/// The bytes of packets, each with its PID's next counter where none is given.
pub fn segment(packets: &[Packet]) -> Vec<u8> {
    let mut counters: HashMap<u16, u8> = HashMap::new();
    let mut bytes = Vec::with_capacity(packets.len() * SIZE);
    for packet in packets {
        let next = match counters.get(&packet.pid) {
            None => (packet.pid * 7 % 16) as u8,
            Some(&last) => (last + u8::from(packet.has_payload())) % 16,
        };
        let counter = packet.counter.unwrap_or(next);
        counters.insert(packet.pid, counter);
        bytes.extend_from_slice(&packet.render(counter));
    }
    bytes
}

/// Puts the right CRC behind the section of a packet as it is, where it ends in the packet.
pub fn repair_crc(packet: &mut [u8]) {
    let field = match packet[3] >> 4 & 3 {
        0b01 => 0,
        0b11 => 1 + usize::from(packet[4]),
        _ => return,
    };
    // Behind the pointer.
    let at = 4 + field + 1;
    if at + 3 > packet.len() {
        return;
    }
    let length = usize::from(packet[at + 1] & 0x0F) << 8 | usize::from(packet[at + 2]);
    let end = at + 3 + length;
    if length >= 4 && end <= packet.len() {
        let right = crc(&packet[at..end - 4]).to_be_bytes();
        packet[end - 4..end].copy_from_slice(&right);
    }
}

/// A PAT without CRC.
pub fn pat(programs: &[(u16, u16)]) -> Vec<u8> {
    let mut body = vec![PAT_TABLE, 0xB0, 0, 0x12, 0x34, 0xC1, 0, 0];
    for &(program, pid) in programs {
        body.extend_from_slice(&program.to_be_bytes());
        body.extend_from_slice(&(0xE000 | pid).to_be_bytes());
    }
    let mut section = Section::new(body);
    section.set_length();
    section.body
}

/// An entry of a PMT.
#[derive(Clone, Debug)]
pub struct Entry {
    pub stream_type: u8,
    pub pid: u16,
    pub descriptors: Vec<u8>,
}

impl Entry {
    pub fn new(stream_type: u8, pid: u16, descriptors: &[u8]) -> Entry {
        Entry {
            stream_type,
            pid,
            descriptors: descriptors.to_vec(),
        }
    }

    /// An AV1 entry, with more descriptors behind its registration.
    pub fn av1(pid: u16, more: &[u8]) -> Entry {
        Entry::new(0x06, pid, &[&REGISTRATION, more].concat())
    }
}

/// A PMT without CRC.
pub fn pmt(program: u16, pcr_pid: u16, info: &[u8], entries: &[Entry]) -> Vec<u8> {
    let mut body = vec![PMT_TABLE, 0xB0, 0];
    body.extend_from_slice(&program.to_be_bytes());
    body.extend_from_slice(&[0xC1, 0, 0]);
    body.extend_from_slice(&(0xE000 | pcr_pid).to_be_bytes());
    body.extend_from_slice(&(0xF000 | info.len() as u16).to_be_bytes());
    body.extend_from_slice(info);
    for entry in entries {
        body.push(entry.stream_type);
        body.extend_from_slice(&(0xE000 | entry.pid).to_be_bytes());
        body.extend_from_slice(&(0xF000 | entry.descriptors.len() as u16).to_be_bytes());
        body.extend_from_slice(&entry.descriptors);
    }
    let mut section = Section::new(body);
    section.set_length();
    section.body
}

/// What comes before the units: the PAT of one program, by its number and its map's PID, its PMT, and
/// a packet with a PCR.
pub fn head((program, map): (u16, u16), pmt: Vec<u8>, clock: Packet) -> Vec<Packet> {
    vec![
        Packet::section(0, pat(&[(program, map)])),
        Packet::section(map, pmt),
        clock,
    ]
}

/// A PES and its header's variations.
#[derive(Clone, Debug)]
pub struct Pes {
    pub pts: u64,
    pub dts: Option<u64>,
    /// Whether the length is given, where it can be.
    pub with_length: bool,
    /// Stuffing in the header.
    pub stuffing: usize,
    /// Other bits of bytes 6 and 7, that are not looked at.
    pub bits: (u8, u8),
    pub unit: Vec<u8>,
}

impl Pes {
    pub fn new(pts: u64, dts: Option<u64>, unit: &[u8]) -> Pes {
        Pes {
            pts,
            dts,
            with_length: true,
            stuffing: 0,
            bits: (0, 0),
            unit: unit.to_vec(),
        }
    }

    /// The header's bytes.
    pub fn header_size(&self) -> usize {
        9 + if self.dts.is_some() { 10 } else { 5 } + self.stuffing
    }

    pub fn bytes(&self) -> Vec<u8> {
        let size = self.header_size();
        let after = size - 6 + self.unit.len();
        let length = if self.with_length && after <= 0xFFFF {
            after as u16
        } else {
            0
        };
        let mut bytes = vec![0, 0, 1, 0xBD];
        bytes.extend_from_slice(&length.to_be_bytes());
        bytes.push(0x84 | self.bits.0 & 0x0B);
        bytes.push(if self.dts.is_some() { 0xC0 } else { 0x80 } | self.bits.1 & 0x3F);
        bytes.push((size - 9) as u8);
        match self.dts {
            None => bytes.extend_from_slice(&time(0b0010, self.pts)),
            Some(dts) => {
                bytes.extend_from_slice(&time(0b0011, self.pts));
                bytes.extend_from_slice(&time(0b0001, dts));
            }
        }
        bytes.resize(size, 0xFF);
        bytes.extend_from_slice(&self.unit);
        bytes
    }

    /// The PES in packets, each as full as it can be but the last.
    pub fn packets(&self, pid: u16) -> Vec<Packet> {
        let mut packets = Vec::new();
        for part in self.bytes().chunks(BEHIND_HEADER) {
            let load = Load::Bytes(part.to_vec());
            packets.push(Packet::new(pid, packets.is_empty(), load));
        }
        packets
    }
}

/// A time in five bytes.
pub fn time(prefix: u8, ticks: u64) -> [u8; 5] {
    let bits = u64::from(prefix) << 36
        | (ticks >> 30 & 0x7) << 33
        | 1 << 32
        | (ticks >> 15 & 0x7FFF) << 17
        | 1 << 16
        | (ticks & 0x7FFF) << 1
        | 1;
    let [_, _, _, a, b, c, d, e] = bits.to_be_bytes();
    [a, b, c, d, e]
}

/// A small segment to show: a PAT, a PMT with AV1 and one other stream, a PCR alone, three units of
/// which one has a DTS, stuffing, null packets and an unlisted PID.
pub fn sample() -> Vec<u8> {
    const MAP: u16 = 0x1000;
    const AV1: u16 = 0x0100;
    const OTHER: u16 = 0x0101;
    const UNLISTED: u16 = 0x0042;
    let video = [0x80, 0x04, 0x81, 0x08, 0x0C, 0xC0];
    let entries = [Entry::av1(AV1, &video), Entry::new(0x0F, OTHER, &[])];
    let head = head(
        (1, MAP),
        pmt(1, AV1, &[], &entries),
        Packet::clock(AV1, (900_000, 0)),
    );
    let tables = head[..2].to_vec();
    let other = |start, fill| Packet::new(OTHER, start, Load::Bytes(vec![fill; BEHIND_HEADER]));
    let unlisted = Packet::new(UNLISTED, true, Load::Bytes(vec![0x55; BEHIND_HEADER]));

    // A delimiter, a sequence header of 11 bytes, and a frame.
    let key = sample_unit(&[&[0x12, 0x00], &sequence_header(), &frame(0x10, 1500)]);
    let inter = sample_unit(&[&[0x12, 0x00], &frame(0x30, 420)]);
    let last = sample_unit(&[&[0x12, 0x00], &frame(0x50, 100)]);

    let mut packets = head;
    packets.extend(Pes::new(990_000, Some(986_997), &key).packets(AV1));
    packets.insert(5, other(true, 0xA0));
    packets.insert(8, unlisted);
    packets.push(Packet::null());
    packets.extend(Pes::new(993_003, None, &inter).packets(AV1));
    packets.push(other(false, 0xA1));
    packets.extend(tables);
    let mut third = Pes::new(996_006, None, &last).packets(AV1);
    third[0].pcr = Some((906_006, 150));
    packets.extend(third);
    packets.push(Packet::null());
    segment(&packets)
}

/// A sequence header with size, of 11 bytes of content.
fn sequence_header() -> Vec<u8> {
    let content = [
        0x00, 0x00, 0x00, 0x4A, 0xAB, 0xBF, 0xC3, 0x77, 0x6B, 0xE4, 0x01,
    ];
    [&[0x0A, content.len() as u8][..], &content].concat()
}

/// A frame with size, of some content.
fn frame(first: u8, len: usize) -> Vec<u8> {
    let mut obu = vec![0x32, (len & 0x7F | 0x80) as u8, (len >> 7) as u8];
    for i in 0..len {
        // Now and then zeros, so that bytes are inserted.
        obu.push(if i % 97 < 4 {
            0
        } else {
            first.wrapping_add((i * 7) as u8)
        });
    }
    obu
}

fn sample_unit(obus: &[&[u8]]) -> Vec<u8> {
    let lengths: Vec<usize> = obus.iter().map(|obu| obu.len()).collect();
    crate::unit::written(&obus.concat(), &lengths).expect("the sample's units are right")
}
