//! PAT and PMT: every bit, byte, length and cut, with the CRC right and wrong; maps of all sizes.

use crate::helpers::segment::Caller;
use crate::helpers::segment::set_up::{
    AV1, MAP, OTHER, PROGRAM, SECOND, VIDEO, entries, more_entries, pat_body, pmt_body, unit,
};
use crate::kit::{Definition, Random, Suite, labels};
use reference::compose::{self, Entry, Load, Packet, Pes, Section, segment};
use reference::crc::crc;
use reference::descriptor::REGISTRATION;
use reference::section::{CONDITIONS_25, CONDITIONS_26, CONDITIONS_28};

pub const SUITE: Definition = Definition {
    name: "segment-sections",
    labels: || labels(&[CONDITIONS_25, CONDITIONS_26, CONDITIONS_28, LABELS].concat()),
    run,
};

const LABELS: &[&str] = &[
    "accepted",
    "PAT: byte changed, CRC right",
    "PAT: byte changed, CRC wrong",
    "PAT: CRC changed",
    "PAT: section length",
    "PAT: entries",
    "PMT: byte changed, CRC right",
    "PMT: byte changed, CRC wrong",
    "PMT: CRC changed",
    "PMT: section length",
    "PMT: two bytes changed, CRC right",
    "PMT: cut, CRC right",
    "PMT: entries",
    "map of 0 streams",
    "map of 1 stream",
    "map of 12 streams",
    "map of 13 streams",
    "map of 14 streams",
    "a twelfth that is wrong, then a thirteenth",
    "a thirteenth that is wrong",
    "thirteen, none of AV1",
    "section of a full packet",
    "payload and fill",
    "later section",
];

/// The segment around both tables: a PCR, a unit, and the tables again.
fn around(pat: &Section, pmt: &Section) -> Vec<Packet> {
    let pat = Packet::new(0, true, Load::Section(pat.clone()));
    let pmt = Packet::new(MAP, true, Load::Section(pmt.clone()));
    let mut packets = vec![pat.clone(), pmt.clone(), Packet::clock(AV1, (1, 1))];
    packets.extend(Pes::new(90, None, &unit(20)).packets(AV1));
    packets.extend([pat, pmt]);
    packets
}

struct Tables {
    caller: Caller,
    pat: Section,
    pmt: Section,
}

impl Tables {
    fn pat(&mut self, suite: &mut Suite, pat: &Section, more: &[&str]) {
        let bytes = segment(&around(pat, &self.pmt));
        self.caller.check_wide(suite, &bytes, more);
    }

    fn pmt(&mut self, suite: &mut Suite, pmt: &Section, more: &[&str]) {
        let bytes = segment(&around(&self.pat, pmt));
        self.caller.check_wide(suite, &bytes, more);
    }

    fn map(&mut self, suite: &mut Suite, entries: &[Entry], more: &[&str]) {
        self.pmt(suite, &Section::new(pmt_body(entries)), more);
    }
}

/// Sections with one byte changed, the CRC being right or that of before.
fn each_byte(section: &Section, mut each: impl FnMut(&Section, bool)) {
    for at in 0..section.body.len() {
        for value in 0..=255 {
            let mut changed = section.clone();
            changed.body[at] = value;
            each(&changed, true);
            let kept = crc(&section.body) ^ crc(&changed.body);
            changed.crc_flip = kept;
            if value == section.body[at] ^ 1 << (at % 8) || value == !section.body[at] {
                each(&changed, false);
            }
        }
    }
}

/// The bits of a CRC to turn over so that the decoder's elements end as those given: its 32 steps
/// gone back.
fn flip_that_leaves(elements: u32) -> u32 {
    let mut flip = elements;
    for _ in 0..32 {
        flip = if flip & 1 == 1 {
            (flip ^ 0x04C1_1DB7) >> 1 | 0x8000_0000
        } else {
            flip >> 1
        };
    }
    flip
}

fn run(suite: &mut Suite) {
    let mut random = Random::new(33);
    let mut tables = Tables {
        caller: Caller::default(),
        pat: Section::new(compose::pat(&[(0, 0x10), (PROGRAM, MAP)])),
        pmt: Section::new(pmt_body(&entries())),
    };
    let (pat, pmt) = (tables.pat.clone(), tables.pmt.clone());

    // Every byte with every value.
    each_byte(&pat, |section, right| {
        let label = match right {
            true => "PAT: byte changed, CRC right",
            false => "PAT: byte changed, CRC wrong",
        };
        tables.pat(suite, section, &[label]);
    });
    each_byte(&pmt, |section, right| {
        let label = match right {
            true => "PMT: byte changed, CRC right",
            false => "PMT: byte changed, CRC wrong",
        };
        tables.pmt(suite, section, &[label]);
    });
    crcs(suite, &mut tables, &mut random, &pat, &pmt);
    lengths(suite, &mut tables, &pat, &pmt);
    cuts(suite, &mut tables, &mut random, &pmt);
    pat_entries(suite, &mut tables, &mut random);
    maps(suite, &mut tables);
    random_maps(suite, &mut tables, &mut random);
    fills(suite, &mut tables);
    later(suite, &mut tables, &mut random);
}

/// Every bit of the CRC, and what leaves every bit in the decoder's elements.
fn crcs(suite: &mut Suite, tables: &mut Tables, random: &mut Random, pat: &Section, pmt: &Section) {
    for bit in 0..32 {
        for crc_flip in [1 << bit, flip_that_leaves(1 << bit)] {
            let mut section = pat.clone();
            section.crc_flip = crc_flip;
            tables.pat(suite, &section, &["PAT: CRC changed"]);
            let mut section = pmt.clone();
            section.crc_flip = crc_flip;
            tables.pmt(suite, &section, &["PMT: CRC changed"]);
        }
    }
    for _ in 0..500 {
        let mut section = pat.clone();
        section.crc_flip = random.next() as u32;
        tables.pat(suite, &section, &["PAT: CRC changed"]);
        let mut section = pmt.clone();
        section.crc_flip = random.next() as u32;
        tables.pmt(suite, &section, &["PMT: CRC changed"]);
    }
}

/// Every section length, the bytes being cut or filled with FF to it where they can be, the CRC
/// right where the section ends.
fn lengths(suite: &mut Suite, tables: &mut Tables, pat: &Section, pmt: &Section) {
    for length in 0..4096usize {
        for table in 0..2 {
            let mut section = [pat, pmt][table].clone();
            section.body[1] = section.body[1] & 0xF0 | (length >> 8) as u8;
            section.body[2] = length as u8;
            if length < 170 {
                section.body.resize((length + 3).max(7) - 4, 0xFF);
                section.body[2] = length as u8;
            }
            if table == 0 {
                tables.pat(suite, &section, &["PAT: section length"]);
            } else {
                tables.pmt(suite, &section, &["PMT: section length"]);
            }
        }
    }
}

/// Cuts of a PMT, bytes put in, and two bytes changed, with right length and CRC.
fn cuts(suite: &mut Suite, tables: &mut Tables, random: &mut Random, pmt: &Section) {
    for cut in 3..pmt.body.len() {
        let mut section = pmt.clone();
        section.body.truncate(cut);
        section.set_length();
        tables.pmt(suite, &section, &["PMT: cut, CRC right"]);
        let mut section = pmt.clone();
        section.body.remove(cut);
        section.set_length();
        tables.pmt(suite, &section, &["PMT: cut, CRC right"]);
        for byte in [0, 1, 5, 0xFF] {
            let mut section = pmt.clone();
            section.body.insert(cut, byte);
            section.set_length();
            tables.pmt(suite, &section, &["PMT: cut, CRC right"]);
        }
    }
    for _ in 0..30_000 {
        let mut section = pmt.clone();
        for _ in 0..2 {
            let at = 8 + random.below(section.body.len() - 8);
            section.body[at] = match random.below(3) {
                0 => random.below(16) as u8,
                1 => section.body[at] ^ 1 << random.below(8),
                _ => random.next() as u8,
            };
        }
        tables.pmt(suite, &section, &["PMT: two bytes changed, CRC right"]);
    }
}

/// PATs of any entries.
fn pat_entries(suite: &mut Suite, tables: &mut Tables, random: &mut Random) {
    for map_pid in 0..0x2000 {
        let section = Section::new(compose::pat(&[(PROGRAM, map_pid)]));
        tables.pat(suite, &section, &["PAT: entries"]);
    }
    for _ in 0..6000 {
        let mut programs = Vec::new();
        for _ in 0..random.below(5) {
            let program = random.pick(&[0, 0, 0, PROGRAM, PROGRAM, 1, 0x0200, 0x0003]);
            let pid = match random.below(3) {
                0 => random.pick(&[0, 0x0F, 0x10, 0x1FFE, 0x1FFF]),
                _ => MAP,
            };
            programs.push((program, pid));
        }
        let mut section = Section::new(compose::pat(&programs));
        if random.one_in(5) {
            section.body.push(random.next() as u8);
            section.set_length();
        }
        tables.pat(suite, &section, &["PAT: entries"]);
    }
    // As many as a packet holds, the program at each place.
    for count in 41..45 {
        for at in 0..count {
            let mut programs = vec![(0, 0x1FFF); count];
            programs[at] = (PROGRAM, MAP);
            let section = Section::new(compose::pat(&programs));
            let more: &[&str] = if section.bytes().len() == 184 {
                &["PAT: entries", "section of a full packet"]
            } else {
                &["PAT: entries"]
            };
            tables.pat(suite, &section, more);
        }
    }
    let mut section = Section::new(compose::pat(&[(PROGRAM, MAP)]));
    for _ in 0..42 {
        section.body.extend([0, 0, 0xE0, 0x10]);
    }
    section.body.truncate(184 - 5);
    section.set_length();
    tables.pat(
        suite,
        &section,
        &["PAT: entries", "section of a full packet"],
    );
}

/// Maps of all numbers of streams, AV1 at each place, and what is wrong around the twelfth.
fn maps(suite: &mut Suite, tables: &mut Tables) {
    for count in 0..=25 {
        let label = match count {
            0 => "map of 0 streams",
            1 => "map of 1 stream",
            12 => "map of 12 streams",
            13 => "map of 13 streams",
            14 => "map of 14 streams",
            _ => "PMT: entries",
        };
        let mut others = Vec::new();
        more_entries(&mut others, count);
        tables.map(suite, &others, &[label]);
        for at in 0..count {
            let mut entries = others.clone();
            entries[at] = Entry::av1(AV1, &VIDEO);
            tables.map(suite, &entries, &[label]);
            for wrong in 0..count {
                for how in 0..6 {
                    let mut entries = entries.clone();
                    let entry = &mut entries[wrong];
                    match how {
                        0 => entry.pid = 0,
                        1 => entry.pid = 0x1FFF,
                        2 => entry.pid = MAP,
                        3 => entry.descriptors.push(0x0A),
                        4 => entry.descriptors.insert(0, 0x0A),
                        _ => entry.pid = 0x0600,
                    }
                    let more = match (count, wrong) {
                        (13, 11) => "a twelfth that is wrong, then a thirteenth",
                        (13, 12) => "a thirteenth that is wrong",
                        _ => label,
                    };
                    tables.map(suite, &entries, &[label, more]);
                }
            }
        }
    }
    odd_maps(suite, tables);
}

/// Maps with no AV1 entry or two, with bytes behind the last entry, and as long as a packet.
fn odd_maps(suite: &mut Suite, tables: &mut Tables) {
    for count in 11..=13 {
        let mut entries = Vec::new();
        more_entries(&mut entries, count);
        let label = if count == 13 {
            "thirteen, none of AV1"
        } else {
            "PMT: entries"
        };
        tables.map(suite, &entries, &[label]);
        entries[3] = Entry::new(0x1B, OTHER, &REGISTRATION);
        tables.map(suite, &entries, &[label]);
        entries[7] = Entry::av1(AV1, &[]);
        tables.map(suite, &entries, &["PMT: entries"]);
        entries[3].stream_type = 6;
        tables.map(suite, &entries, &["PMT: entries"]);
    }
    // Bytes behind the last entry, up to a whole one and more.
    for count in [1, 2, 11, 12] {
        for more in 1..=12 {
            let mut list = vec![Entry::av1(AV1, &[])];
            more_entries(&mut list, count);
            let mut section = Section::new(pmt_body(&list));
            section
                .body
                .extend(&[0x0F, 0xE7, 0x77, 0xF0, 0, 2, 0xE7, 0x78, 0xF0, 0, 0, 0][..more]);
            section.set_length();
            tables.pmt(suite, &section, &["PMT: entries"]);
        }
    }
    // A map that fills its packet.
    for len in 100..140 {
        let mut descriptors = vec![0x0A, len];
        descriptors.resize(2 + usize::from(len), 0x11);
        let list = [Entry::av1(AV1, &VIDEO), Entry::new(2, OTHER, &descriptors)];
        let section = Section::new(pmt_body(&list));
        let more: &[&str] = if section.bytes().len() == 184 {
            &["section of a full packet"]
        } else {
            &["PMT: entries"]
        };
        tables.pmt(suite, &section, more);
    }
}

/// Maps of entries and descriptors of many kinds, right and wrong.
fn random_maps(suite: &mut Suite, tables: &mut Tables, random: &mut Random) {
    let bad_video = [0x80, 0x04, 0x82, 0x08, 0x0C, 0xC0];
    let kinds: [&[u8]; 12] = [
        &REGISTRATION,
        &REGISTRATION,
        &VIDEO,
        &VIDEO,
        &bad_video,
        &[0x80, 0x00],
        &[0x80, 0x03, 0x81, 0x08, 0x0C],
        &[0x05, 0x04, 0x41, 0x56, 0x30, 0x32],
        &[0x05, 0x05, 0x41, 0x56, 0x30, 0x31, 0x31],
        &[0x0A, 0x00],
        &[0x52, 0x01, 0x01],
        &[0x05, 0x04, 0x41, 0x56],
    ];
    for _ in 0..60_000 {
        let mut list = Vec::new();
        for _ in 0..random.below(4) {
            let stream_type = random.pick(&[6, 6, 6, 6, 0x1B, 0x0F]);
            let pid = random.pick(&[AV1, AV1, OTHER, OTHER, SECOND, 7, 0x0F0F, 0, MAP]);
            let mut descriptors = Vec::new();
            let first = random.pick(&kinds[..4]);
            if random.one_in(2) {
                descriptors.extend_from_slice(first);
            }
            for _ in 0..random.below(4) {
                // Seldom the last, which is not whole.
                let count = kinds.len() - usize::from(!random.one_in(8));
                descriptors.extend_from_slice(random.pick(&kinds[..count]));
            }
            list.push(Entry::new(stream_type, pid, &descriptors));
        }
        let info: &[u8] = match random.below(6) {
            0 => &REGISTRATION,
            1 => &VIDEO,
            2 => &[0x09],
            3 => &[0x09, 0x02, 0x00],
            _ => &[],
        };
        let program = if random.one_in(20) { 1 } else { PROGRAM };
        let pcr_pid = random.pick(&[AV1, AV1, AV1, OTHER]);
        let section = Section::new(compose::pmt(program, pcr_pid, info, &list));
        if section.bytes().len() <= 184 {
            tables.pmt(suite, &section, &["PMT: entries"]);
        }
    }
}

/// Payload start, pointer, and every byte of the fill, in every kind of packet with a section.
fn fills(suite: &mut Suite, tables: &mut Tables) {
    let packets = around(&tables.pat, &tables.pmt);
    let sections = [0, 1, packets.len() - 2, packets.len() - 1];
    for at in sections {
        let end = 4 + packets[at].clone().section_mut().bytes().len();
        for place in end..188 {
            for value in [0, 0x7F, 0xFE, 0x47] {
                let mut packets = packets.clone();
                packets[at].patches.push((place, value));
                let bytes = segment(&packets);
                tables
                    .caller
                    .check_wide(suite, &bytes, &["payload and fill"]);
            }
        }
        for pointer in 0..=255 {
            for start in [true, false] {
                let mut packets = packets.clone();
                packets[at].section_mut().pointer = pointer;
                packets[at].start = start;
                let bytes = segment(&packets);
                tables
                    .caller
                    .check_wide(suite, &bytes, &["payload and fill"]);
            }
        }
        // Adaptation fields of all sizes: the section fits, or does not end in the packet.
        for field in 0..=183 {
            let mut packets = packets.clone();
            packets[at].field = field;
            let bytes = segment(&packets);
            tables
                .caller
                .check_wide(suite, &bytes, &["payload and fill"]);
        }
    }
}

/// Later sections: equal, or with one byte changed.
fn later(suite: &mut Suite, tables: &mut Tables, random: &mut Random) {
    let packets = around(&tables.pat, &tables.pmt);
    for at in [packets.len() - 2, packets.len() - 1] {
        let len = packets[at].clone().section_mut().body.len();
        for place in 0..len {
            for bit in 0..8 {
                for crc_right in [true, false] {
                    let mut packets = packets.clone();
                    let section = packets[at].section_mut();
                    let before = crc(&section.body);
                    section.body[place] ^= 1 << bit;
                    if !crc_right {
                        section.crc_flip = before ^ crc(&section.body);
                    }
                    let bytes = segment(&packets);
                    tables.caller.check_wide(suite, &bytes, &["later section"]);
                }
            }
        }
        for bit in 0..32 {
            let mut packets = packets.clone();
            packets[at].section_mut().crc_flip = 1 << bit;
            let bytes = segment(&packets);
            tables.caller.check_wide(suite, &bytes, &["later section"]);
        }
        for _ in 0..300 {
            // Longer or shorter, alike at the front.
            let mut packets = packets.clone();
            let section = packets[at].section_mut();
            let len = 8 + random.below(60);
            section.body.resize(len, 0x11);
            section.set_length();
            let bytes = segment(&packets);
            tables.caller.check_wide(suite, &bytes, &["later section"]);
        }
    }
    // The other table on the PID, equal to the first of its own PID.
    let mut swapped = around(&tables.pat, &tables.pmt);
    let count = swapped.len();
    swapped[count - 2].load = Load::Section(Section::new(pmt_body(&entries())));
    let bytes = segment(&swapped);
    tables.caller.check_wide(suite, &bytes, &["later section"]);
    swapped[count - 2].load = Load::Section(Section::new(pat_body()));
    swapped[count - 1].load = Load::Section(Section::new(pat_body()));
    let bytes = segment(&swapped);
    tables.caller.check_wide(suite, &bytes, &["later section"]);
}
