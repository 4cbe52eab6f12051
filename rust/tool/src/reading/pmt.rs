//! The program map table.

use super::finding::Finding;
use super::section::Section;
use super::{byte, pair, part, pid};
use crate::hex;
use crate::library::{self, Edition};

/// One stream of the program.
#[derive(Clone, Debug)]
pub struct Entry {
    pub stream_type: u8,
    pub pid: u16,
    /// Each with its tag and length.
    pub descriptors: Vec<Vec<u8>>,
    /// Whether the descriptors do not fill their loop.
    pub spilled: bool,
}

/// The streams of the program.
#[derive(Clone, Debug)]
pub struct Pmt {
    pub program: u16,
    pub pcr_pid: u16,
    pub entries: Vec<Entry>,
    /// Whether the entries do not fill the section.
    pub spilled: bool,
}

/// The registration of an edition.
pub fn registration(edition: Edition) -> &'static [u8] {
    match edition {
        Edition::Current => b"\x05\x04AV01",
        Edition::Draft => b"\x05\x04AV1 ",
    }
}

impl Entry {
    pub fn is_av1(&self, edition: Edition) -> bool {
        let first = self.descriptors.first().map(Vec::as_slice);
        self.stream_type == 6 && first == Some(registration(edition))
    }

    /// Its video descriptors, with tag and length.
    pub fn video(&self) -> impl Iterator<Item = &Vec<u8>> {
        self.descriptors.iter().filter(|bytes| bytes[0] == 0x80)
    }
}

impl Pmt {
    pub fn av1(&self, edition: Edition) -> Option<&Entry> {
        self.entries.iter().find(|entry| entry.is_av1(edition))
    }

    pub fn lists(&self, pid: u16) -> bool {
        self.entries.iter().any(|entry| entry.pid == pid)
    }
}

/// Descriptors of a loop, and whether they do not fill it.
fn descriptors(bytes: &[u8]) -> (Vec<Vec<u8>>, bool) {
    let mut found = Vec::new();
    let mut rest = bytes;
    while !rest.is_empty() {
        let size = 2 + usize::from(byte(rest, 1));
        if rest.len() < size {
            return (found, true);
        }
        found.push(rest[..size].to_vec());
        rest = &rest[size..];
    }
    (found, false)
}

/// The table, as far as it can be taken apart.
pub fn read(section: Section) -> Pmt {
    let content = section.content();
    let info = usize::from(pair(content, 2) & 0x0FFF);
    let mut rest = part(content, 4 + info, content.len());
    let mut entries = Vec::new();
    let mut spilled = content.len() < 4 + info;
    while !rest.is_empty() {
        let size = 5 + usize::from(pair(rest, 3) & 0x0FFF);
        let (descriptors, spills) = descriptors(part(rest, 5, size));
        entries.push(Entry {
            stream_type: byte(rest, 0),
            pid: pair(rest, 1) & 0x1FFF,
            descriptors,
            spilled: spills,
        });
        spilled |= rest.len() < size;
        rest = part(rest, size, rest.len());
    }
    Pmt {
        program: section.number(),
        pcr_pid: pair(content, 0) & 0x1FFF,
        entries,
        spilled,
    }
}

/// The table field by field. `program` and `map_pid` are those of the PAT.
pub fn findings(
    section: Section,
    start: bool,
    program: u16,
    map_pid: u16,
    edition: Edition,
) -> Vec<Finding> {
    let pmt = read(section);
    let mut found = section.front(start, 2, "program_number");
    if pmt.program != program {
        let at = found.iter_mut().find(|line| line.what == "program_number");
        if let Some(line) = at {
            line.wrong = Some(format!("the PAT names program {program}"));
        }
    }
    found.push(Finding::new("PCR_PID", pid(pmt.pcr_pid)));
    found.push(
        Finding::new("entries", pmt.entries.len()).wrong_if(pmt.entries.len() > 12, "at most 12"),
    );
    for (index, entry) in pmt.entries.iter().enumerate() {
        let twice = pmt.entries[..index]
            .iter()
            .any(|other| other.pid == entry.pid);
        found.extend(entry_findings(entry, twice, map_pid, edition));
    }
    found.push(streams(&pmt, edition));
    if pmt.spilled {
        found
            .push(Finding::new("entries' lengths", "do not fill the section").wrong("they are to"));
    }
    found.extend(section.back());
    found
}

/// How many AV1 streams there are.
fn streams(pmt: &Pmt, edition: Edition) -> Finding {
    let count = pmt
        .entries
        .iter()
        .filter(|entry| entry.is_av1(edition))
        .count();
    Finding::new("AV1 entries", count).wrong_if(count != 1, "exactly one is due")
}

fn entry_findings(entry: &Entry, twice: bool, map_pid: u16, edition: Edition) -> Vec<Finding> {
    let name = format!("stream_type 0x{:02X}", entry.stream_type);
    let taken = [0, 0x1FFF, map_pid].contains(&entry.pid);
    let mut found = vec![
        Finding::new(name, format!("PID {}", pid(entry.pid)))
            .wrong_if(taken, "no PID of a stream")
            .wrong_if(twice, "the PID stands twice"),
    ];
    let av1 = entry.is_av1(edition);
    for (index, bytes) in entry.descriptors.iter().enumerate() {
        found.push(descriptor(bytes, index, av1, edition));
    }
    if av1 && entry.video().count() > 1 {
        found.push(Finding::new("  video descriptors", entry.video().count()).wrong("at most one"));
    }
    if entry.spilled {
        found.push(Finding::new("  descriptors", "do not fill their loop").wrong("they are to"));
    }
    found
}

fn descriptor(bytes: &[u8], index: usize, av1: bool, edition: Edition) -> Finding {
    let letters: String = bytes[2..]
        .iter()
        .map(|byte| match byte {
            0x20..=0x7E => *byte as char,
            _ => '.',
        })
        .collect();
    let line = Finding::new(
        format!("  descriptor 0x{:02X}", bytes[0]),
        format!("{}  '{letters}'", hex::front(bytes, 16)),
    );
    if bytes == registration(edition) && !(av1 && index == 0) {
        return line.wrong("this stands first in an entry of stream_type 0x06, and nowhere else");
    }
    if av1 && bytes[0] == 0x80 && edition == Edition::Current {
        if let Err(refused) = library::read_descriptor(bytes) {
            return line.wrong(format!(
                "refused {}: no right video descriptor",
                refused.number
            ));
        }
    }
    line
}
