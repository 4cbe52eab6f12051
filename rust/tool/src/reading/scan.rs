//! What the packets of a segment have told, up to a place.

use super::packet::{NULL, Packet, SIZE, packet};
use super::pat::{self, Pat};
use super::pes;
use super::pmt::{self, Pmt};
use super::section::Section;
use crate::library::Edition;
use std::collections::HashMap;

/// The class that a packet is counted in.
#[derive(Clone, Copy, Debug, PartialEq, Eq)]
pub enum Class {
    Null,
    Section,
    Av1,
    Listed,
    Unlisted,
}

/// The first section of a table.
pub struct Table<T> {
    pub packet: usize,
    pub bytes: Vec<u8>,
    pub read: T,
}

/// The last packet of a PID whose counter is watched.
#[derive(Clone, Copy)]
pub struct Last {
    pub packet: usize,
    /// How often it was sent again.
    pub copies: usize,
}

pub struct Scan {
    pub edition: Edition,
    pub pat: Option<Table<Pat>>,
    pub pmt: Option<Table<Pmt>>,
    pub last: HashMap<u16, Last>,
    /// The packets that have a PCR on the PCR PID, behind the PMT.
    pub pcrs: Vec<(usize, u64)>,
    /// The packets that begin a PES of the AV1 stream.
    pub starts: Vec<usize>,
    pub classes: Vec<Class>,
}

impl Scan {
    /// Reads the first packets of a segment.
    pub fn over(segment: &[u8], packets: usize, edition: Edition) -> Scan {
        let mut scan = Scan {
            edition,
            pat: None,
            pmt: None,
            last: HashMap::new(),
            pcrs: Vec::new(),
            starts: Vec::new(),
            classes: Vec::new(),
        };
        for index in 0..packets.min(segment.len() / SIZE) {
            scan.take(segment, index);
        }
        scan
    }

    pub fn map_pid(&self) -> Option<u16> {
        self.pat.as_ref().map(|table| table.read.map_pid)
    }

    pub fn av1_pid(&self) -> Option<u16> {
        let entry = self.pmt.as_ref()?.read.av1(self.edition)?;
        Some(entry.pid)
    }

    pub fn pcr_pid(&self) -> Option<u16> {
        self.pmt.as_ref().map(|table| table.read.pcr_pid)
    }

    pub fn class(&self, pid: u16) -> Class {
        let listed = || {
            self.pmt
                .as_ref()
                .map_or(false, |table| table.read.lists(pid))
        };
        match pid {
            NULL => Class::Null,
            0 => Class::Section,
            _ if self.map_pid() == Some(pid) => Class::Section,
            _ if self.av1_pid() == Some(pid) => Class::Av1,
            _ if listed() => Class::Listed,
            _ => Class::Unlisted,
        }
    }

    fn take(&mut self, segment: &[u8], index: usize) {
        let here = packet(segment, index);
        let class = self.class(here.pid());
        self.classes.push(class);
        if Some(here.pid()) == self.pcr_pid() {
            self.pcrs.extend(here.pcr().map(|pcr| (index, pcr)));
        }
        if class == Class::Null || class == Class::Unlisted {
            return;
        }
        let copies = self.copies(segment, here);
        self.last.insert(
            here.pid(),
            Last {
                packet: index,
                copies,
            },
        );
        if copies > 0 || !here.has_payload() {
            return;
        }
        match class {
            Class::Section => self.table(here, index),
            Class::Av1 if here.start() => self.starts.push(index),
            _ => {}
        }
    }

    /// How many times a packet has been sent before it, as it seems.
    pub fn copies(&self, segment: &[u8], here: Packet) -> usize {
        match self.last.get(&here.pid()) {
            Some(last) if again(here, packet(segment, last.packet)) => last.copies + 1,
            _ => 0,
        }
    }

    fn table(&mut self, here: Packet, index: usize) {
        let section = Section::new(here.payload());
        let bytes = section.bytes().to_vec();
        if here.pid() == 0 && self.pat.is_none() {
            self.pat = pat::read(section).map(|read| Table {
                packet: index,
                bytes,
                read,
            });
        } else if here.pid() != 0 && self.pmt.is_none() {
            self.pmt = Some(Table {
                packet: index,
                bytes,
                read: pmt::read(section),
            });
        }
    }
}

/// Whether a packet with payload is the last one of its PID sent again.
fn again(here: Packet, last: Packet) -> bool {
    here.has_payload() && !here.discontinuity() && here.repeats(last)
}

/// The bytes of a PES that begins in a packet: the payloads up to the next start on its PID.
pub fn pes_bytes(segment: &[u8], start: usize) -> Vec<u8> {
    let first = packet(segment, start);
    let mut bytes = first.payload().to_vec();
    let mut last = first;
    for index in start + 1..segment.len() / SIZE {
        let here = packet(segment, index);
        if here.pid() != first.pid() || !here.has_payload() || again(here, last) {
            continue;
        }
        if here.start() {
            break;
        }
        bytes.extend(here.payload());
        last = here;
    }
    bytes
}

/// The carried unit of such a PES.
pub fn unit_bytes(segment: &[u8], start: usize) -> Vec<u8> {
    let mut bytes = pes_bytes(segment, start);
    let data_at = pes::read(&bytes).data_at.min(bytes.len());
    bytes.split_off(data_at)
}
