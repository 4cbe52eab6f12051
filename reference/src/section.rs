//! Sections (13818-1, 2.4.4): the PAT, the PMT, and the refusals 25 to 28.

use crate::crc::crc;
use crate::descriptor::{self, VIDEO_TAG, Video};
use crate::edition::Edition;
use crate::packet::{NULL, Packet};
use crate::refusal::Refusal;

/// "12 streams in a program map"
pub const MOST_STREAMS: usize = 12;

pub const PAT_TABLE: u8 = 0;
pub const PMT_TABLE: u8 = 2;

/// Which of both tables a section is to be.
#[derive(Clone, Copy, Debug, PartialEq, Eq)]
pub enum Table {
    Pat,
    Pmt,
}

macro_rules! wrong {
    ($table:expr, $index:expr, $text:literal) => {
        Err(match $table {
            Table::Pat => Refusal::new(25, $index, concat!("25: ", $text)),
            Table::Pmt => Refusal::new(26, $index, concat!("26: ", $text)),
        })
    };
}

/// The section of a packet, from table id to CRC: "a packet with payload on PID 0 or the map PID has
/// payload start 1 and pointer 0, the section ends in that packet, 0xFF fills the rest."
pub fn section<'a>(table: Table, packet: &Packet<'a>, index: usize) -> Result<&'a [u8], Refusal> {
    let payload = packet.payload.expect("only a packet with payload is read");
    if !packet.payload_start {
        return wrong!(table, index, "no payload start");
    }
    if payload[0] != 0 {
        return wrong!(table, index, "pointer not 0");
    }
    let rest = &payload[1..];
    if rest.len() < 3 {
        return wrong!(table, index, "section passes the packet");
    }
    let length = usize::from(u16::from_be_bytes([rest[1], rest[2]]) & 0x0FFF);
    if 3 + length > rest.len() {
        return wrong!(table, index, "section passes the packet");
    }
    let (section, fill) = rest.split_at(3 + length);
    if fill.iter().any(|&byte| byte != 0xFF) {
        return wrong!(table, index, "fill not FF");
    }
    Ok(section)
}

/// What PAT and PMT have in common; answers the 16 bits behind the length, and what stands between
/// the last section number and the CRC. "Syntax indicator 1, current_next 1, section and last section
/// 0, CRC of 13818-1 Annex A right, reserved bits and the zero bit after the syntax indicator
/// ignored."
fn common(table: Table, section: &[u8], index: usize) -> Result<(u16, &[u8]), Refusal> {
    let (table_id, least) = match table {
        Table::Pat => (PAT_TABLE, 12),
        Table::Pmt => (PMT_TABLE, 16),
    };
    if section[0] != table_id {
        return wrong!(table, index, "another table");
    }
    if section[1] & 0x80 == 0 {
        return wrong!(table, index, "syntax indicator 0");
    }
    if section.len() < least {
        return wrong!(table, index, "section too short");
    }
    if section[5] & 1 == 0 {
        return wrong!(table, index, "current_next 0");
    }
    if section[6] != 0 {
        return wrong!(table, index, "section number not 0");
    }
    if section[7] != 0 {
        return wrong!(table, index, "last section number not 0");
    }
    if crc(section) != 0 {
        return wrong!(table, index, "CRC");
    }
    let number = u16::from_be_bytes([section[3], section[4]]);
    Ok((number, &section[8..section.len() - 4]))
}

/// What a PAT says.
#[derive(Clone, Copy, Debug, PartialEq, Eq)]
pub struct Pat {
    pub program: u16,
    pub map_pid: u16,
}

/// "PAT: table 0, entries of four bytes up to the CRC, exactly one program not 0, map PID 0x0010 to
/// 0x1FFE; program 0 is skipped."
pub fn pat(section: &[u8], index: usize) -> Result<Pat, Refusal> {
    let (_, body) = common(Table::Pat, section, index)?;
    if body.len() % 4 != 0 {
        return wrong!(Table::Pat, index, "entries not of four bytes");
    }
    let mut programs = Vec::new();
    for entry in body.chunks(4) {
        let program = u16::from_be_bytes([entry[0], entry[1]]);
        let map_pid = u16::from_be_bytes([entry[2], entry[3]]) & 0x1FFF;
        if program != 0 {
            programs.push(Pat { program, map_pid });
        }
    }
    match programs[..] {
        [] => wrong!(Table::Pat, index, "no program"),
        [pat] if pat.map_pid < 0x0010 => wrong!(Table::Pat, index, "map PID below 0010"),
        [pat] if pat.map_pid > 0x1FFE => wrong!(Table::Pat, index, "map PID above 1FFE"),
        [pat] => Ok(pat),
        _ => wrong!(Table::Pat, index, "more than one program"),
    }
}

/// An entry of a PMT.
#[derive(Clone, Debug, PartialEq, Eq)]
pub struct Entry {
    pub stream_type: u8,
    pub pid: u16,
    /// Each with tag and length.
    pub descriptors: Vec<Vec<u8>>,
}

/// What a PMT says.
#[derive(Clone, Debug, PartialEq, Eq)]
pub struct Pmt {
    pub pcr_pid: u16,
    pub pids: Vec<u16>,
    /// PID and stream_type of each entry.
    pub streams: Vec<(u16, u8)>,
    pub av1_pid: u16,
    /// The AV1 entry's video descriptor, where it has one.
    pub video: Option<Video>,
}

/// Descriptors, where they fill the bytes exactly.
pub fn descriptors(mut bytes: &[u8]) -> Option<Vec<Vec<u8>>> {
    let mut list = Vec::new();
    while !bytes.is_empty() {
        let length = usize::from(*bytes.get(1)?);
        list.push(bytes.get(..2 + length)?.to_vec());
        bytes = &bytes[2 + length..];
    }
    Some(list)
}

/// "PMT: table 2, the PAT's program number, descriptors and entries filling their lengths exactly, no
/// PID twice, none equal to 0, 0x1FFF or the map PID. After the CRC the entries are tried in order,
/// each wholly for 26; 27 is given where bytes remain after a twelfth that passed; 28 last."
pub fn pmt(section: &[u8], pat: &Pat, edition: Edition, index: usize) -> Result<Pmt, Refusal> {
    let (program, body) = common(Table::Pmt, section, index)?;
    if program != pat.program {
        return wrong!(Table::Pmt, index, "another program");
    }
    let pcr_pid = u16::from_be_bytes([body[0], body[1]]) & 0x1FFF;
    let info_length = usize::from(u16::from_be_bytes([body[2], body[3]]) & 0x0FFF);
    let rest = &body[4..];
    if info_length > rest.len() {
        return wrong!(Table::Pmt, index, "program_info passes the section");
    }
    let (info, rest) = rest.split_at(info_length);
    if descriptors(info).is_none() {
        return wrong!(Table::Pmt, index, "descriptors do not fill program_info");
    }
    let entries = entries(rest, pat, index)?;
    let (av1_pid, video) = av1_entry(&entries, edition, index)?;
    let pids = entries.iter().map(|entry| entry.pid).collect();
    let streams = entries.iter().map(|entry| (entry.pid, entry.stream_type));
    Ok(Pmt {
        pcr_pid,
        pids,
        streams: streams.collect(),
        av1_pid,
        video,
    })
}

/// The entries, "tried in order, each wholly for 26; 27 .. where bytes remain after a twelfth that
/// passed".
fn entries(mut rest: &[u8], pat: &Pat, index: usize) -> Result<Vec<Entry>, Refusal> {
    let mut entries: Vec<Entry> = Vec::new();
    while !rest.is_empty() {
        if entries.len() == MOST_STREAMS {
            return Err(Refusal::new(27, index, "27: more than 12 entries"));
        }
        if rest.len() < 5 {
            return wrong!(Table::Pmt, index, "entry under 5 bytes");
        }
        let pid = u16::from_be_bytes([rest[1], rest[2]]) & 0x1FFF;
        let length = usize::from(u16::from_be_bytes([rest[3], rest[4]]) & 0x0FFF);
        if 5 + length > rest.len() {
            return wrong!(Table::Pmt, index, "entry passes the section");
        }
        let descriptors = match descriptors(&rest[5..5 + length]) {
            Some(descriptors) => descriptors,
            _ => return wrong!(Table::Pmt, index, "descriptors do not fill the entry"),
        };
        if entries.iter().any(|entry| entry.pid == pid) {
            return wrong!(Table::Pmt, index, "a PID twice");
        }
        if pid == 0 {
            return wrong!(Table::Pmt, index, "an entry on PID 0");
        }
        if pid == NULL {
            return wrong!(Table::Pmt, index, "an entry on PID 1FFF");
        }
        if pid == pat.map_pid {
            return wrong!(Table::Pmt, index, "an entry on the map PID");
        }
        entries.push(Entry {
            stream_type: rest[0],
            pid,
            descriptors,
        });
        rest = &rest[5 + length..];
    }
    Ok(entries)
}

/// "28: not exactly one AV1 entry, the registration 'AV01' elsewhere in an entry's loop or with
/// stream_type other than 0x06, or the AV1 entry has two video descriptors or one refused by 40."
/// "The AV1 entry has stream_type 0x06 and the registration as its first descriptor." Under draft its
/// own registration is "read for 'AV01' in 28", and "tag 0x80 is not interpreted". Answers the AV1
/// entry's PID and its video descriptor.
fn av1_entry(
    entries: &[Entry],
    edition: Edition,
    index: usize,
) -> Result<(u16, Option<Video>), Refusal> {
    let wrong = |condition| Err(Refusal::new(28, index, condition));
    let registration = edition.registration();
    for entry in entries {
        for (place, descriptor) in entry.descriptors.iter().enumerate() {
            if *descriptor == registration {
                if place != 0 {
                    return wrong("28: registration not the first");
                }
                if entry.stream_type != 0x06 {
                    return wrong("28: registration with another stream_type");
                }
            }
        }
    }
    // The registration now stands only at the front of loops, of entries with stream_type 0x06.
    let registered =
        |entry: &&Entry| matches!(entry.descriptors.first(), Some(first) if *first == registration);
    let av1: Vec<&Entry> = entries.iter().filter(registered).collect();
    let entry = match av1[..] {
        [] => return wrong("28: no AV1 entry"),
        [entry] => entry,
        _ => return wrong("28: two AV1 entries"),
    };
    // "2026-04 answers none"
    if edition == Edition::Draft {
        return Ok((entry.pid, None));
    }
    let mut videos = Vec::new();
    for descriptor in &entry.descriptors {
        if descriptor[0] == VIDEO_TAG {
            videos.push(descriptor);
        }
    }
    if videos.len() > 1 {
        return wrong("28: two video descriptors");
    }
    let bytes = match videos.first() {
        Some(bytes) => bytes,
        _ => return Ok((entry.pid, None)),
    };
    match descriptor::read(bytes) {
        Err(_) => wrong("28: video descriptor refused by 40"),
        Ok(video) => Ok((entry.pid, Some(video))),
    }
}

/// "A later section not equal to the first is 25 or 26 and read no further."
pub fn later(table: Table, section: &[u8], first: &[u8], index: usize) -> Result<(), Refusal> {
    if section != first {
        return wrong!(table, index, "later section not equal");
    }
    Ok(())
}

/// The conditions of 25.
pub const CONDITIONS_25: &[&str] = &[
    "25: no payload start",
    "25: pointer not 0",
    "25: section passes the packet",
    "25: fill not FF",
    "25: another table",
    "25: syntax indicator 0",
    "25: section too short",
    "25: current_next 0",
    "25: section number not 0",
    "25: last section number not 0",
    "25: CRC",
    "25: entries not of four bytes",
    "25: no program",
    "25: map PID below 0010",
    "25: map PID above 1FFE",
    "25: more than one program",
    "25: later section not equal",
];

/// The conditions of 26.
pub const CONDITIONS_26: &[&str] = &[
    "26: no payload start",
    "26: pointer not 0",
    "26: section passes the packet",
    "26: fill not FF",
    "26: another table",
    "26: syntax indicator 0",
    "26: section too short",
    "26: current_next 0",
    "26: section number not 0",
    "26: last section number not 0",
    "26: CRC",
    "26: another program",
    "26: program_info passes the section",
    "26: descriptors do not fill program_info",
    "26: entry under 5 bytes",
    "26: entry passes the section",
    "26: descriptors do not fill the entry",
    "26: a PID twice",
    "26: an entry on PID 0",
    "26: an entry on PID 1FFF",
    "26: an entry on the map PID",
    "26: later section not equal",
];

/// The conditions of 27 and 28.
pub const CONDITIONS_28: &[&str] = &[
    "27: more than 12 entries",
    "28: no AV1 entry",
    "28: two AV1 entries",
    "28: registration not the first",
    "28: registration with another stream_type",
    "28: two video descriptors",
    "28: video descriptor refused by 40",
];
