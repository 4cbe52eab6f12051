//! A segment that is right, and changes that each break one rule of it.

use crate::helpers::segment::set_up::{
    AV1, MAP, OTHER, PROGRAM, SECOND, UNLISTED, VIDEO, entries, more_entries, pat_body, pmt_body,
    unit,
};
use crate::helpers::segment::wide;
use reference::compose::{self, Entry, Load, Packet, Pes, Section};
use reference::descriptor::REGISTRATION;
use reference::packet::{self, SIZE};
use reference::segment::{CONDITIONS_8, CONDITIONS_24, Rooms};
use reference::{pes, section};
use std::rc::Rc;

/// A segment's description, the rooms it is checked into, and bytes more or less at its end.
#[derive(Clone)]
pub struct Base {
    pub packets: Vec<Packet>,
    pub rooms: Option<Rooms>,
    pub bytes_more: usize,
    pub bytes_less: usize,
}

impl Base {
    pub fn new(packets: Vec<Packet>) -> Base {
        Base {
            packets,
            rooms: None,
            bytes_more: 0,
            bytes_less: 0,
        }
    }

    pub fn bytes(&self) -> Vec<u8> {
        let mut bytes = compose::segment(&self.packets);
        bytes.resize(bytes.len() + self.bytes_more, 0x47);
        bytes.truncate(bytes.len() - self.bytes_less);
        bytes
    }

    pub fn rooms_for(&self, bytes: &[u8]) -> Rooms {
        self.rooms.unwrap_or(wide(bytes))
    }

    /// The rooms, for a change.
    fn rooms_mut(&mut self) -> &mut Rooms {
        let all = wide(&compose::segment(&self.packets));
        self.rooms.get_or_insert(all)
    }
}

// The places of the base's packets.
const NULL_FIRST: usize = 0;
const UNLISTED_FIRST: usize = 1;
pub const PAT: usize = 2;
const MAP_ALONE: usize = 4;
pub const PMT: usize = 5;
pub const PCR: usize = 6;
const START_0: usize = 7;
const LATER_0: usize = 8;
const OTHER_1: usize = 9;
const LATER_0B: usize = 10;
const PAT_AGAIN: usize = 11;
const START_1: usize = 12;
const NULL_1: usize = 13;
pub const PMT_AGAIN: usize = 14;
const OTHER_2: usize = 15;
const START_2: usize = 16;
const UNLISTED_2: usize = 17;
const LATER_2: usize = 18;
const AV1_ALONE: usize = 19;
const OTHER_3: usize = 20;
const MAP_LAST: usize = 21;
const COUNT: usize = 22;

/// Three units, the first over three packets, the second in one and the third over two.
pub fn base() -> Base {
    let any = |pid, start, fill| Packet::new(pid, start, Load::Bytes(vec![fill; 184]));
    let first = Pes::new(5000, None, &unit(400)).packets(AV1);
    let second = Pes::new(6000, Some(5500), &unit(60)).packets(AV1);
    let third = Pes::new(7000, None, &unit(200)).packets(AV1);
    assert!((first.len(), second.len(), third.len()) == (3, 1, 2));
    let packets = vec![
        Packet::null(),
        any(UNLISTED, true, 0x11),
        Packet::section(0, pat_body()),
        Packet::new(0, false, Load::Nothing),
        Packet::new(MAP, false, Load::Nothing),
        Packet::section(MAP, pmt_body(&entries())),
        Packet::clock(AV1, (1000, 20)),
        first[0].clone(),
        first[1].clone(),
        any(OTHER, true, 0x22),
        first[2].clone(),
        Packet::section(0, pat_body()),
        second[0].clone(),
        Packet::null(),
        Packet::section(MAP, pmt_body(&entries())),
        Packet::new(OTHER, false, Load::Nothing),
        third[0].clone(),
        any(UNLISTED, false, 0x33),
        third[1].clone(),
        Packet::new(AV1, false, Load::Nothing),
        any(OTHER, false, 0x44),
        Packet::new(MAP, false, Load::Nothing),
    ];
    assert!(packets.len() == COUNT);
    Base::new(packets)
}

/// The conditions that the faults break, but those of a closing.
pub fn conditions() -> Vec<&'static str> {
    let others = &[
        "20: not a multiple of 188",
        "29: before any start",
        "31: no PCR yet",
        "32: PES longer than its length",
        "32: PES shorter than its length",
        "33: no PAT",
        "33: no PMT",
    ];
    [
        packet::CONDITIONS,
        CONDITIONS_24,
        CONDITIONS_8,
        section::CONDITIONS_25,
        section::CONDITIONS_26,
        section::CONDITIONS_28,
        pes::CONDITIONS,
        others,
    ]
    .concat()
}

/// A change that breaks one rule: the verdict it is meant for, and the packet at which it shows. An
/// earlier change can have taken away what it changes; then it does nothing.
#[derive(Clone)]
pub struct Fault {
    pub condition: String,
    pub number: u64,
    pub place: usize,
    pub moment: usize,
    pub apply: Rc<dyn Fn(&mut Base)>,
}

/// Bits of the header of a PES that are turned over: the condition, the byte, and the bits.
const START: &[(&str, usize, u8)] = &[
    ("29: prefix", 0, 0x01),
    ("29: prefix", 1, 0x80),
    ("29: prefix", 2, 0x01),
    ("29: prefix", 2, 0x02),
    ("29: stream_id", 3, 0x01),
    ("29: stream_id", 3, 0x5D),
    ("29: the bits 10", 6, 0x80),
    ("29: the bits 10", 6, 0x40),
    ("29: the bits 10", 6, 0xC0),
    ("29: scrambling", 6, 0x10),
    ("29: scrambling", 6, 0x20),
    ("29: scrambling", 6, 0x30),
    ("29: no data_alignment", 6, 0x04),
    ("29: PTS prefix", 9, 0x10),
    ("29: PTS prefix", 9, 0x20),
    ("29: PTS prefix", 9, 0x80),
    ("29: PTS marker bits", 9, 0x01),
    ("29: PTS marker bits", 11, 0x01),
    ("29: PTS marker bits", 13, 0x01),
];

/// Changes of the unit, which is 00 00 01 12 00 00 00 01 30 AA AA .., by their places in it; of the
/// one without changes there are 65 OBUs.
const UNIT: &[(&str, &[(usize, u8)])] = &[
    ("9: no start code at the head", &[(2, 2)]),
    ("9: no start code at the head", &[(0, 1)]),
    ("1: more than 64 OBUs", &[]),
    ("3: no bytes", &[(3, 0), (4, 0), (5, 1), (6, 0x12)]),
    ("10: 00 00 00", &[(10, 0), (11, 0), (12, 0)]),
    ("10: 00 00 02", &[(10, 0), (11, 0), (12, 2)]),
    ("10: 00 00 03 then above 3", &[(10, 0), (11, 0), (12, 3)]),
    ("4: forbidden bit", &[(3, 0x92)]),
    ("5: size above what remains", &[(4, 1)]),
    ("5: delimiter with content", &[(3, 0x10)]),
    ("6: tile list", &[(3, 0x42)]),
    ("7: after a frame", &[(3, 0x32)]),
    // AA is content whose fifth bit is 1.
    ("42: reduced_still_picture_header", &[(8, 0x08)]),
    ("7: ends before the frame", &[(8, 0x28)]),
];

/// Faults as they are collected.
#[derive(Default)]
pub struct Faults {
    pub list: Vec<Fault>,
}

impl Faults {
    /// A fault with its place at the packet where it shows.
    fn add(&mut self, condition: &str, at: usize, apply: impl Fn(&mut Base) + 'static) {
        self.add_at(condition, at, at, apply);
    }

    fn add_at(
        &mut self,
        condition: &str,
        place: usize,
        moment: usize,
        apply: impl Fn(&mut Base) + 'static,
    ) {
        let (number, _) = condition.split_once(':').expect("a number and a colon");
        self.list.push(Fault {
            condition: condition.to_string(),
            number: number.parse().expect("a number"),
            place,
            moment,
            apply: Rc::new(apply),
        });
    }

    fn patch(&mut self, condition: &str, at: usize, offset: usize, byte: u8) {
        self.add(condition, at, move |base| {
            base.packets[at].patches.push((offset, byte));
        });
    }

    /// 21 and 22, of any packet.
    pub fn any_packet(&mut self, at: usize) {
        self.patch("21: first byte is not 47", at, 0, 0x46);
        self.patch("21: first byte is not 47", at, 0, 0x00);
        self.add("22: transport error", at, move |base| {
            let high = (base.packets[at].pid >> 8) as u8 | u8::from(base.packets[at].start) << 6;
            base.packets[at].patches.push((1, 0x80 | high));
        });
    }

    /// 23, of any packet that is not null.
    pub fn packet(&mut self, at: usize) {
        self.any_packet(at);
        // The counter in the low bits is kept by a change of the other bits alone.
        for (condition, control) in [
            ("23: scrambling", 0x50u8),
            ("23: scrambling", 0xB0),
            ("23: adaptation control 00", 0x00),
        ] {
            self.add(condition, at, move |base| {
                let counter = counter_of(base, at);
                base.packets[at].patches.push((3, control | counter));
            });
        }
        for (condition, control, length, flags, low) in [
            ("23: adaptation length not 183", 0x20, 182, 0, 0),
            ("23: adaptation length not 183", 0x20, 184, 0, 0),
            ("23: adaptation length not 183", 0x20, 0, 0, 0),
            ("23: adaptation length above 182", 0x30, 183, 0, 0),
            ("23: adaptation length above 182", 0x30, 255, 0, 0),
            ("23: PCR in under 7 bytes", 0x30, 6, 0x10, 0),
            ("23: PCR in under 7 bytes", 0x30, 1, 0x10, 0),
            ("23: PCR extension above 299", 0x30, 7, 0x10, 0x2C),
        ] {
            self.add(condition, at, move |base| {
                let counter = counter_of(base, at);
                let patches = &mut base.packets[at].patches;
                patches.extend([(3, control | counter), (4, length), (5, flags)]);
                if low != 0 {
                    patches.extend([(10, 0x7F), (11, low)]);
                }
            });
        }
    }

    /// 24 at a packet of a PID that had one before.
    pub fn counter(&mut self, condition: &str, at: usize) {
        self.counter_by(condition, at, [1, 2, 15]);
    }

    /// The same, with what is added to the counter.
    fn counter_by(&mut self, condition: &str, at: usize, added: [u8; 3]) {
        for by in added {
            self.add(condition, at, move |base| {
                let counter = counter_of(base, at);
                base.packets[at].counter = Some((counter + by) % 16);
                // Later packets of the PID go on from the counter they had.
                let pid = base.packets[at].pid;
                let later = (at + 1..base.packets.len()).find(|&i| base.packets[i].pid == pid);
                match later {
                    Some(later) if base.packets[later].counter.is_none() => {
                        let next = (counter + u8::from(base.packets[later].has_payload())) % 16;
                        base.packets[later].counter = Some(next);
                    }
                    _ => {}
                }
            });
        }
    }

    fn section(&mut self, condition: &str, at: usize, change: impl Fn(&mut Section) + 'static) {
        let least = if condition.starts_with("25") { 8 } else { 14 };
        self.add(condition, at, move |base| {
            match &mut base.packets[at].load {
                Load::Section(section) if section.body.len() >= least => {
                    change(section);
                }
                _ => {}
            }
        });
    }

    /// What every packet with payload of PID 0 or the map PID must have.
    pub fn sections(&mut self, number: u64, at: usize, later: bool) {
        let name = |text: &str| format!("{number}: {text}");
        self.add(&name("no payload start"), at, move |base| {
            base.packets[at].start = false;
        });
        self.section(&name("pointer not 0"), at, |section| section.pointer = 1);
        self.section(&name("pointer not 0"), at, |section| section.pointer = 0xFF);
        self.section(&name("section passes the packet"), at, |section| {
            section.body[2] = 181;
        });
        self.section(&name("section passes the packet"), at, |section| {
            section.body[1] |= 0x04;
        });
        self.section(&name("section passes the packet"), at, |section| {
            section.body[1] |= 0x08;
        });
        self.add(&name("section passes the packet"), at, move |base| {
            base.packets[at].field = 184 - 3;
        });
        self.patch(&name("fill not FF"), at, 187, 0xFE);
        self.patch(&name("fill not FF"), at, 187, 0x00);
        self.add(&name("fill not FF"), at, move |base| {
            if let Load::Section(section) = &base.packets[at].load {
                let end = 4 + base.packets[at].least_field() + section.bytes().len();
                base.packets[at].patches.push((end.min(187), 0x7F));
            }
        });
        self.contents(number, at, later);
    }

    /// What every section must have. A later one that is changed is not equal.
    fn contents(&mut self, number: u64, at: usize, later: bool) {
        let name = |text: &str| format!("{number}: {text}");
        let content = |text: &str| {
            name(if later {
                "later section not equal"
            } else {
                text
            })
        };
        self.section(&content("another table"), at, |section| {
            section.body[0] ^= 1;
        });
        self.section(&content("syntax indicator 0"), at, |section| {
            section.body[1] &= 0x7F;
        });
        self.section(&content("current_next 0"), at, |section| {
            section.body[5] &= 0xFE;
        });
        self.section(&content("section number not 0"), at, |section| {
            section.body[6] = 1;
        });
        self.section(&content("last section number not 0"), at, |section| {
            section.body[7] = 0x80;
        });
        for flip in [1, 0x8000_0000, 0xFFFF_FFFF] {
            self.section(&content("CRC"), at, move |section| section.crc_flip = flip);
        }
        // Too short for the fixed fields and the CRC, and no bytes at all behind the length.
        for keep in if number == 25 { [7, 3] } else { [11, 8] } {
            self.section(&content("section too short"), at, move |section| {
                section.body.truncate(keep);
                section.set_length();
            });
        }
        if later {
            // Equal but for bits that are not looked at.
            for (byte, bit) in [(1, 0x40), (1, 0x10), (3, 0x01), (5, 0x02), (5, 0x80)] {
                self.section(&name("later section not equal"), at, move |section| {
                    section.body[byte] ^= bit;
                });
            }
        }
    }

    fn pat_of(&mut self, condition: &str, at: usize, programs: &'static [(u16, u16)]) {
        self.section(condition, at, move |section| {
            section.body = compose::pat(programs);
        });
    }

    pub fn pat(&mut self) {
        self.sections(25, PAT, false);
        self.sections(25, PAT_AGAIN, true);
        for more in [1, 2, 3] {
            self.section("25: entries not of four bytes", PAT, move |section| {
                section.body.extend(&[0; 3][..more]);
                section.set_length();
            });
        }
        self.pat_of("25: no program", PAT, &[]);
        self.pat_of("25: no program", PAT, &[(0, 0x10), (0, 0x20)]);
        self.pat_of("25: map PID below 0010", PAT, &[(PROGRAM, 0x0F)]);
        self.pat_of("25: map PID below 0010", PAT, &[(PROGRAM, 0)]);
        self.pat_of("25: map PID above 1FFE", PAT, &[(PROGRAM, 0x1FFF)]);
        let two = "25: more than one program";
        self.pat_of(two, PAT, &[(PROGRAM, MAP), (PROGRAM, MAP)]);
        self.pat_of(two, PAT, &[(PROGRAM, MAP), (0, 5), (9, 0x500)]);
        let later = "25: later section not equal";
        self.pat_of(later, PAT_AGAIN, &[(PROGRAM, MAP), (0, 0x10)]);
        self.pat_of(later, PAT_AGAIN, &[(PROGRAM, MAP + 1)]);
        self.pat_of(later, PAT_AGAIN, &[(PROGRAM + 1, MAP)]);
    }

    fn pmt_of(&mut self, condition: &str, at: usize, change: fn(&mut Vec<Entry>)) {
        self.section(condition, at, move |section| {
            let mut entries = entries();
            change(&mut entries);
            section.body = pmt_body(&entries);
        });
    }

    pub fn pmt(&mut self) {
        self.sections(26, PMT, false);
        self.sections(26, PMT_AGAIN, true);
        self.section("26: another program", PMT, |section| section.body[4] ^= 1);
        self.section("26: another program", PMT, |section| {
            section.body[3] ^= 0x80
        });
        for length in [47, 255] {
            let condition = "26: program_info passes the section";
            self.section(condition, PMT, move |section| {
                // The PMT's 12 fixed bytes come first.
                section.body[11] = length;
            });
        }
        let condition = "26: program_info passes the section";
        self.section(condition, PMT, |section| section.body[10] |= 0x0C);
        for length in [1, 3] {
            let condition = "26: descriptors do not fill program_info";
            self.section(condition, PMT, move |section| section.body[13] = length);
        }
        let condition = "26: descriptors do not fill program_info";
        self.section(condition, PMT, |section| {
            section.body = compose::pmt(PROGRAM, AV1, &[0x0B], &entries());
        });
        for more in [1, 4] {
            self.section("26: entry under 5 bytes", PMT, move |section| {
                section.body.extend(&[0x0F, 0xE1, 0x99, 0xF0][..more]);
                section.set_length();
            });
        }
        self.section("26: entry passes the section", PMT, |section| {
            *section.body.last_mut().expect("not empty") = 1;
        });
        self.section("26: entry passes the section", PMT, |section| {
            let at = section.body.len() - 2;
            section.body[at] |= 0x04;
        });
        let unfilled = "26: descriptors do not fill the entry";
        self.pmt_of(unfilled, PMT, |entries| entries[0].descriptors[1] = 2);
        self.pmt_of(unfilled, PMT, |entries| entries[0].descriptors[1] = 0);
        self.pmt_of(unfilled, PMT, |entries| entries[2].descriptors.push(9));
        self.pmt_of(unfilled, PMT, |entries| {
            entries[1].descriptors.pop();
        });
        self.pmt_of("26: a PID twice", PMT, |entries| entries[2].pid = OTHER);
        self.pmt_of("26: a PID twice", PMT, |entries| entries[1].pid = OTHER);
        self.pmt_of("26: an entry on PID 0", PMT, |entries| entries[2].pid = 0);
        self.pmt_of("26: an entry on PID 1FFF", PMT, |entries| {
            entries[0].pid = 0x1FFF;
        });
        self.pmt_of("26: an entry on the map PID", PMT, |entries| {
            entries[0].pid = MAP;
        });
        self.pmt_of_many();
        self.av1_entry();
        self.later_pmt();
    }

    /// A later PMT that is not equal.
    fn later_pmt(&mut self) {
        let later = "26: later section not equal";
        self.pmt_of(later, PMT_AGAIN, |entries| {
            entries.pop();
        });
        self.pmt_of(later, PMT_AGAIN, |entries| more_entries(entries, 13));
        self.pmt_of(later, PMT_AGAIN, |entries| entries.clear());
        self.pmt_of(later, PMT_AGAIN, |entries| entries[1].stream_type = 7);
    }

    /// 28: the AV1 entry and its descriptors.
    fn av1_entry(&mut self) {
        let none = "28: no AV1 entry";
        self.pmt_of(none, PMT, |entries| entries[1].descriptors.clear());
        self.pmt_of(none, PMT, |entries| entries.clear());
        self.pmt_of(none, PMT, |entries| {
            entries.remove(1);
        });
        self.pmt_of(none, PMT, |entries| entries[1].descriptors[5] = 0x32);
        self.pmt_of("28: two AV1 entries", PMT, |entries| {
            entries[2] = Entry::av1(SECOND, &[]);
        });
        let elsewhere = "28: registration not the first";
        self.pmt_of(elsewhere, PMT, |entries| {
            entries[1].descriptors.extend(REGISTRATION);
        });
        self.pmt_of(elsewhere, PMT, |entries| {
            entries[0].descriptors.extend(REGISTRATION);
        });
        self.pmt_of(elsewhere, PMT, |entries| {
            entries[1].descriptors = [&VIDEO[..], &REGISTRATION].concat();
        });
        let other_type = "28: registration with another stream_type";
        self.pmt_of(other_type, PMT, |entries| entries[1].stream_type = 0x1B);
        self.pmt_of(other_type, PMT, |entries| {
            entries[0].descriptors = REGISTRATION.to_vec();
        });
        self.pmt_of("28: two video descriptors", PMT, |entries| {
            entries[1].descriptors.extend(VIDEO);
        });
        self.pmt_of("28: two video descriptors", PMT, |entries| {
            entries[1].descriptors.extend([0x80, 0x00]);
        });
        let refused = "28: video descriptor refused by 40";
        for (byte, bit) in [(8, 0x80), (8, 2), (11, 0x20), (11, 1)] {
            self.section(refused, PMT, move |section| {
                let mut entries = entries();
                entries[1].descriptors[byte] ^= bit;
                section.body = pmt_body(&entries);
            });
        }
        self.pmt_of(refused, PMT, |entries| {
            entries[1].descriptors.truncate(11);
            entries[1].descriptors[7] = 3;
        });
        self.pmt_of(refused, PMT, |entries| {
            entries[1].descriptors.push(0);
            entries[1].descriptors[7] = 5;
        });
    }

    /// 27: more than twelve entries.
    fn pmt_of_many(&mut self) {
        let many = "27: more than 12 entries";
        self.pmt_of(many, PMT, |entries| more_entries(entries, 13));
        self.pmt_of(many, PMT, |entries| more_entries(entries, 15));
        // 13 entries, none of AV1.
        self.pmt_of(many, PMT, |entries| {
            more_entries(entries, 13);
            entries[1].stream_type = 0x1B;
        });
        // A thirteenth that is not whole.
        self.section(many, PMT, |section| {
            let mut entries = entries();
            more_entries(&mut entries, 12);
            section.body = pmt_body(&entries);
            section.body.push(0x0F);
            section.set_length();
        });
    }

    /// 29, 30 and 8 of a packet that starts a PES.
    pub fn start(&mut self, at: usize, with_dts: bool) {
        for &(condition, byte, mask) in START {
            self.header(condition, at, move |bytes| bytes[byte] ^= mask);
        }
        if with_dts {
            for (condition, byte, mask) in [
                ("29: DTS prefix", 14, 0x10),
                ("29: DTS prefix", 14, 0x20),
                ("29: DTS prefix", 14, 0x40),
                ("29: DTS marker bits", 14, 0x01),
                ("29: DTS marker bits", 16, 0x01),
                ("29: DTS marker bits", 18, 0x01),
            ] {
                self.header(condition, at, move |bytes| bytes[byte] ^= mask);
            }
            // As without DTS.
            self.header("29: PTS prefix", at, |bytes| bytes[7] = 0x80);
        } else {
            self.header("29: length byte under 10", at, |bytes| bytes[7] |= 0xC0);
        }
        self.header("29: flags 01", at, |bytes| bytes[7] = 0x40);
        self.header("29: header not whole in the packet", at, |bytes| {
            bytes[8] = (bytes.len() - 8).min(255) as u8;
        });
        self.header("29: header not whole in the packet", at, |bytes| {
            bytes[8] = 255
        });
        let (condition, least) = if with_dts {
            ("29: length byte under 10", 10)
        } else {
            ("29: length byte under 5", 5)
        };
        self.header(condition, at, move |bytes| bytes[8] = least - 1);
        self.header(condition, at, |bytes| bytes[8] = 0);
        for keep in [8, 4, 1] {
            self.header("29: under 9 bytes", at, move |bytes| bytes.truncate(keep));
        }
        self.header("30: flags 00", at, |bytes| bytes[7] &= 0x3F);
        self.header("30: flags 00", at, |bytes| {
            bytes[7] &= 0x3F;
            bytes[8] = 0;
        });
    }

    fn header(&mut self, condition: &str, at: usize, change: impl Fn(&mut Vec<u8>) + 'static) {
        self.add(condition, at, move |base| {
            match &mut base.packets[at].load {
                Load::Bytes(bytes) if bytes.len() >= 9 => {
                    bytes.resize(bytes.len().max(30), 0xAA);
                    change(bytes);
                }
                _ => {}
            }
        });
    }

    /// 8 at a packet before which so many units and bytes are whole.
    pub fn rooms(&mut self, at: usize, units: Option<usize>, bytes: usize) {
        if let Some(units) = units {
            self.add("8: the unit's length", at, move |base| {
                base.rooms_mut().lengths = units;
            });
            for less in [1, 2] {
                self.add("8: the unit's times", at, move |base| {
                    base.rooms_mut().times = 2 * units + 2 - less;
                });
            }
        }
        let condition = match units {
            Some(_) => "8: bytes of a starting packet",
            None => "8: bytes of a later packet",
        };
        self.add(condition, at, move |base| {
            base.rooms_mut().bytes = bytes;
        });
        self.add(condition, at, move |base| {
            base.rooms_mut().bytes = bytes - 5;
        });
    }

    /// 32, then each number of reading a unit, of a PES that began and closes at those packets.
    pub fn closing(&mut self, began: usize, closes: usize) {
        for (condition, by) in [
            ("32: PES shorter than its length", 1i32),
            ("32: PES shorter than its length", 500),
            ("32: PES longer than its length", -1),
            ("32: PES longer than its length", -20),
        ] {
            self.add_at(condition, began, closes, move |base| {
                match &mut base.packets[began].load {
                    Load::Bytes(bytes) if bytes.len() >= 9 => {
                        let length = i32::from(u16::from_be_bytes([bytes[4], bytes[5]]));
                        let changed = ((length + by).max(1) as u16).to_be_bytes();
                        bytes[4..6].copy_from_slice(&changed);
                    }
                    _ => {}
                }
            });
        }
        for &(condition, changes) in UNIT {
            if changes.is_empty() && began != START_0 {
                // The others are too short for so many.
                continue;
            }
            self.add_at(condition, began, closes, move |base| {
                let bytes = match &mut base.packets[began].load {
                    Load::Bytes(bytes) => bytes,
                    _ => return,
                };
                if bytes.len() < 9 {
                    return;
                }
                let head = 9 + usize::from(bytes[8]);
                for &(at, byte) in changes {
                    if let Some(changed) = bytes.get_mut(head + at) {
                        *changed = byte;
                    }
                }
                if changes.is_empty() {
                    // 65 start codes in what is left of the packet and behind it.
                    many_obus(base, began);
                }
            });
        }
    }

    /// 32 and 6 of a PES in one packet.
    pub fn closing_short(&mut self, began: usize, closes: usize) {
        self.add_at(
            "32: PES longer than its length",
            began,
            closes,
            move |base| {
                base.packets[began].bytes_mut()[5] -= 1;
            },
        );
        self.add_at("6: tile list", began, closes, move |base| {
            // Behind the header's 14 bytes and the start code.
            base.packets[began].bytes_mut()[17] = 0x42;
        });
    }

    /// 20, of the whole.
    pub fn whole(&mut self) {
        for more in [1, 100, SIZE - 1] {
            self.add("20: not a multiple of 188", 0, move |base| {
                base.bytes_more = more;
            });
        }
        self.add("20: not a multiple of 188", 0, |base| base.bytes_less = 1);
    }
}

/// A unit of 65 OBUs in place of the one that begins here: the packets stay as long as they are.
fn many_obus(base: &mut Base, began: usize) {
    let mut carried = Vec::new();
    for _ in 0..64 {
        carried.extend([0, 0, 1, 0x78]);
    }
    carried.extend([0, 0, 1, 0x30]);
    let mut at = began;
    let mut rest = &carried[..];
    while !rest.is_empty() && at < base.packets.len() {
        let packet = &mut base.packets[at];
        match &mut packet.load {
            Load::Bytes(bytes) if packet.pid == AV1 => {
                let head = if at == began {
                    9 + usize::from(bytes[8])
                } else {
                    0
                };
                let head = head.min(bytes.len());
                let len = rest.len().min(bytes.len().saturating_sub(head));
                bytes[head..head + len].copy_from_slice(&rest[..len]);
                rest = &rest[len..];
            }
            _ => {}
        }
        at += 1;
    }
}

/// The counter that a packet of the base has.
fn counter_of(base: &Base, at: usize) -> u8 {
    let bytes = compose::segment(&base.packets[..=at]);
    bytes[at * SIZE + 3] & 0x0F
}

/// 24 of every kind of PID, with payload and without.
fn counters(faults: &mut Faults) {
    faults.counter("24: PID 0, without payload", PAT + 1);
    faults.counter("24: PID 0, with payload", PAT_AGAIN);
    faults.counter("24: map PID, with payload", PMT);
    // With 15 more it would be a copy of the first PMT.
    faults.counter_by("24: map PID, with payload", PMT_AGAIN, [1, 2, 14]);
    faults.counter("24: map PID, without payload", MAP_LAST);
    faults.counter("24: AV1 PID, with payload", START_0);
    faults.counter("24: AV1 PID, with payload", LATER_0);
    faults.counter("24: AV1 PID, with payload", START_1);
    faults.counter("24: AV1 PID, with payload", START_2);
    faults.counter("24: AV1 PID, without payload", AV1_ALONE);
    faults.counter("24: other listed PID, without payload", OTHER_2);
    faults.counter("24: other listed PID, with payload", OTHER_3);
}

/// 8 at each packet that adds bytes to a unit.
fn rooms(faults: &mut Faults) {
    let first = [184 - 14, 184, 409 + 14 - 368];
    let whole: usize = first.iter().sum();
    faults.rooms(START_0, Some(0), first[0] - 1);
    faults.rooms(LATER_0, None, first[0] + first[1] - 1);
    faults.rooms(LATER_0B, None, whole - 1);
    faults.rooms(START_1, Some(1), whole + 69 - 1);
    faults.rooms(START_2, Some(2), whole + 69 + 170 - 1);
    faults.rooms(LATER_2, None, whole + 69 + 209 - 1);
}

/// All faults of the base.
pub fn all() -> Vec<Fault> {
    let mut faults = Faults::default();
    faults.whole();
    for at in [NULL_FIRST, NULL_1] {
        faults.any_packet(at);
    }
    for at in [
        UNLISTED_FIRST,
        PAT,
        MAP_ALONE,
        PMT,
        PCR,
        START_0,
        LATER_0,
        OTHER_1,
        PAT_AGAIN,
        START_1,
        PMT_AGAIN,
        OTHER_2,
        START_2,
        UNLISTED_2,
        LATER_2,
        AV1_ALONE,
    ] {
        faults.packet(at);
    }
    counters(&mut faults);
    faults.pat();
    faults.pmt();
    faults.start(START_0, false);
    faults.start(START_1, true);
    // No payload start where the first PES would start, and where the second would: it goes on.
    faults.add("29: before any start", START_0, |base| {
        base.packets[START_0].start = false;
    });
    faults.add("31: no PCR yet", START_0, |base| {
        base.packets[PCR].pcr = None
    });
    faults.add("31: no PCR yet", START_0, |base| {
        base.packets[PCR].pid = UNLISTED
    });
    rooms(&mut faults);
    faults.closing(START_0, START_1);
    faults.closing(START_1, START_2);
    faults.closing(START_2, COUNT);
    faults.add("33: no PAT", COUNT, |base| {
        base.packets[PAT].pid = UNLISTED;
        base.packets[PAT + 1].pid = UNLISTED;
        base.packets[PAT_AGAIN].pid = UNLISTED;
    });
    faults.add("33: no PMT", COUNT, |base| {
        base.packets[PMT].pid = UNLISTED;
        base.packets[PMT_AGAIN].pid = UNLISTED;
    });
    faults.list
}
