//! Random valid segments, each with what its check must give, known from the making.

use crate::helpers::unit::{any_list, carry_closed};
use crate::kit::Random;
use reference::comparison;
use reference::compose::{self, BEHIND_HEADER, Entry, Load, Packet, Pes};
use reference::descriptor::{self, REGISTRATION};
use reference::packet::NULL;
use reference::segment::{Accepted, Class, Listing, Totals, Unit};

/// A segment that was made.
pub struct Made {
    pub packets: Vec<Packet>,
    pub accepted: Accepted,
    pub listing: Listing,
    pub map_pid: u16,
    /// All PIDs that the PMT lists.
    pub pids: Vec<u16>,
    pub features: Vec<&'static str>,
}

/// All that a made segment can have.
pub const FEATURES: &[&str] = &[
    "1 stream",
    "2 to 11 streams",
    "12 streams",
    "no unit",
    "one unit",
    "several units",
    "PCR alone",
    "PCR with payload",
    "PCR at a unit's start",
    "PCR PID is the AV1 PID",
    "PCR PID is another listed PID",
    "PCR PID is unlisted",
    "PCR PID is PID 0",
    "PCR PID is the map PID",
    "PCR PID is 1FFF",
    "PES in one packet",
    "PES in a few packets",
    "PES over many packets",
    "stuffing of one byte",
    "stuffing of several bytes",
    "null packet",
    "null packet, wild",
    "unlisted PID",
    "map PID before the PAT",
    "listed PID before the PMT",
    "other listed PID",
    "PAT repeated",
    "PMT repeated",
    "section beside an adaptation field",
    "program 0 in the PAT",
    "reserved bits turned",
    "program_info",
    "DTS",
    "no DTS",
    "PES length 0",
    "PES length exact",
    "PES header stuffing",
    "other PES flags",
    "video descriptor",
    "video descriptor with delay",
    "no video descriptor",
    "tag 80 in another entry",
    "registration alike",
    "PID 1 to 15",
    "without payload: PID 0",
    "without payload: map PID",
    "without payload: AV1 PID",
    "without payload: other listed PID",
    "payload start without payload",
    "discontinuity",
    "other adaptation flags",
];

struct Maker<'a> {
    random: &'a mut Random,
    packets: Vec<Packet>,
    features: Vec<&'static str>,
    units: Vec<Unit>,
    totals: Totals,
    map_pid: u16,
    pids: Vec<u16>,
    listing: Listing,
    av1_pid: u16,
    pcr_pid: u16,
    video: Option<descriptor::Video>,
    pat: Vec<u8>,
    pmt: Vec<u8>,
    with_pat: bool,
    with_pmt: bool,
    clock: u64,
}

/// So many PIDs that are all different, and none the map's.
fn any_pids(random: &mut Random, map_pid: u16, streams: usize) -> Vec<u16> {
    let mut pids = Vec::new();
    while pids.len() < streams {
        let pid = match random.below(6) {
            0 => 1 + random.below(15) as u16,
            _ => 1 + random.below(0x1FFE) as u16,
        };
        if pid != map_pid && !pids.contains(&pid) {
            pids.push(pid);
        }
    }
    pids
}

/// Makes a segment of at most so many units, each of at most about so many bytes.
pub fn make(random: &mut Random, most_units: usize, longest: usize) -> Made {
    let map_pid = match random.below(8) {
        0 => 0x0010,
        1 => 0x1FFE,
        _ => 0x0010 + random.below(0x1FEF) as u16,
    };
    let streams = match random.below(4) {
        0 => 1,
        1 => 12,
        _ => 1 + random.below(12),
    };
    let pids = any_pids(random, map_pid, streams);
    let av1_pid = random.pick(&pids);
    let unit_count = match random.below(6) {
        0 => 0,
        1 => 1,
        _ => random.below(most_units + 1),
    };
    let mut maker = Maker {
        random,
        packets: Vec::new(),
        features: Vec::new(),
        units: Vec::new(),
        totals: Totals::default(),
        map_pid,
        pids,
        listing: Listing::default(),
        av1_pid,
        pcr_pid: 0,
        video: None,
        pat: Vec::new(),
        pmt: Vec::new(),
        with_pat: false,
        with_pmt: false,
        clock: 0,
    };
    let program = 1 + maker.random.below(0xFFFF) as u16;
    maker.choose_pcr_pid(unit_count);
    maker.write_pat(program);
    maker.write_pmt(program);
    maker.clock = maker.random.next() >> 32;
    maker.go(unit_count, longest);
    maker.made(program)
}

impl Maker<'_> {
    /// What was made.
    fn made(mut self, program: u16) -> Made {
        self.has(match self.pids.len() {
            1 => "1 stream",
            12 => "12 streams",
            _ => "2 to 11 streams",
        });
        self.has(match self.units.len() {
            0 => "no unit",
            1 => "one unit",
            _ => "several units",
        });
        self.features.sort_unstable();
        self.features.dedup();
        Made {
            packets: self.packets,
            accepted: Accepted {
                comparison: comparison::compare(self.video.as_ref(), &self.units),
                program,
                pid: self.av1_pid,
                units: self.units,
                totals: self.totals,
            },
            listing: self.listing,
            map_pid: self.map_pid,
            pids: self.pids,
            features: self.features,
        }
    }

    fn has(&mut self, feature: &'static str) {
        self.features.push(feature);
    }

    fn choose_pcr_pid(&mut self, unit_count: usize) {
        let others: Vec<u16> = self
            .pids
            .iter()
            .copied()
            .filter(|&p| p != self.av1_pid)
            .collect();
        let (pid, feature) = match self.random.below(8) {
            0 if !others.is_empty() => (self.random.pick(&others), "PCR PID is another listed PID"),
            1 => (self.unlisted_pid(), "PCR PID is unlisted"),
            2 => (0, "PCR PID is PID 0"),
            3 => (self.map_pid, "PCR PID is the map PID"),
            4 if unit_count == 0 => (NULL, "PCR PID is 1FFF"),
            _ => (self.av1_pid, "PCR PID is the AV1 PID"),
        };
        self.pcr_pid = pid;
        self.has(feature);
    }

    fn unlisted_pid(&mut self) -> u16 {
        loop {
            let pid = 1 + self.random.below(0x1FFE) as u16;
            if pid != self.map_pid && !self.pids.contains(&pid) {
                return pid;
            }
        }
    }

    fn write_pat(&mut self, program: u16) {
        let mut programs = vec![(program, self.map_pid)];
        for _ in 0..[0, 0, 0, 1, 1, 2, 30][self.random.below(7)] {
            let at = self.random.below(programs.len() + 1);
            let pid = self.random.below(0x2000) as u16;
            programs.insert(at, (0, pid));
            self.has("program 0 in the PAT");
        }
        self.pat = compose::pat(&programs);
        if self.random.one_in(2) {
            self.turn(0, |pat| {
                let mut places = vec![(1, 0x70), (3, 0xFF), (4, 0xFF), (5, 0xFE)];
                places.extend((8..pat.len()).step_by(4).map(|at| (at + 2, 0xE0)));
                places
            });
        }
    }

    fn write_pmt(&mut self, program: u16) {
        // Pointer, fixed fields, CRC, and five bytes an entry; the AV1 entry has 12 more.
        let mut left = 184 - 17 - 5 * self.pids.len() - 12;
        let mut info = Vec::new();
        while self.random.one_in(4) {
            let descriptor = self.descriptor(left, true);
            left -= descriptor.len();
            info.extend(descriptor);
            self.has("program_info");
        }
        let mut entries = Vec::new();
        for pid in self.pids.clone() {
            let is_av1 = pid == self.av1_pid;
            let mut list: Vec<Vec<u8>> = Vec::new();
            while self.random.one_in(3) {
                let descriptor = self.descriptor(left, !is_av1);
                left -= descriptor.len();
                list.push(descriptor);
            }
            if is_av1 {
                if self.random.one_in(2) {
                    let at = self.random.below(list.len() + 1);
                    let video = self.video();
                    self.video = descriptor::read(&video).ok();
                    list.insert(at, video.to_vec());
                    self.has("video descriptor");
                } else {
                    self.has("no video descriptor");
                }
                entries.push(Entry::av1(pid, &list.concat()));
                self.listing.streams.push((pid, 0x06));
            } else {
                let stream_type = match self.random.below(3) {
                    0 => 0x06,
                    _ => self.random.next() as u8,
                };
                entries.push(Entry::new(stream_type, pid, &list.concat()));
                self.listing.streams.push((pid, stream_type));
            }
            if pid < 0x10 {
                self.has("PID 1 to 15");
            }
        }
        self.pmt = compose::pmt(program, self.pcr_pid, &info, &entries);
        if self.random.one_in(2) {
            self.turn(1, |pmt| {
                let mut places = vec![(1, 0x70), (5, 0xFE), (8, 0xE0), (10, 0xF0)];
                let mut at = 12 + usize::from(pmt[11]);
                while at < pmt.len() {
                    places.extend([(at + 1, 0xE0), (at + 3, 0xF0)]);
                    at += 5 + usize::from(pmt[at + 4]);
                }
                places
            });
        }
    }

    /// Turns over bits that are not looked at, in the PAT or in the PMT.
    fn turn(&mut self, table: usize, places: fn(&[u8]) -> Vec<(usize, u8)>) {
        let mut section = if table == 0 {
            self.pat.clone()
        } else {
            self.pmt.clone()
        };
        for (at, mask) in places(&section) {
            section[at] ^= self.random.next() as u8 & mask;
        }
        if table == 0 {
            self.pat = section;
        } else {
            self.pmt = section;
        }
        self.has("reserved bits turned");
    }

    /// A descriptor of at most `left` bytes, which is no registration, or none where nothing fits.
    fn descriptor(&mut self, left: usize, any_tag: bool) -> Vec<u8> {
        let alike: [&[u8]; 5] = [
            &[0x05, 0x04, 0x41, 0x56, 0x30, 0x32],
            &[0x05, 0x05, 0x41, 0x56, 0x30, 0x31, 0x00],
            &[0x05, 0x03, 0x41, 0x56, 0x30],
            &[0x06, 0x04, 0x41, 0x56, 0x30, 0x31],
            &[0x05, 0x06, 0x05, 0x04, 0x41, 0x56, 0x30, 0x31],
        ];
        if left >= 8 && self.random.one_in(3) {
            self.has("registration alike");
            return self.random.pick(&alike).to_vec();
        }
        let len = match self.random.below(4) {
            0 => 0,
            1 => self.random.below(30),
            _ => self.random.below(8),
        };
        if left < 2 + len {
            return Vec::new();
        }
        let tag = match self.random.below(4) {
            0 if any_tag => 0x80,
            1 => 0x05,
            2 => 0x52,
            _ => self.random.next() as u8,
        };
        if tag == 0x80 {
            if !any_tag {
                return Vec::new();
            }
            self.has("tag 80 in another entry");
        }
        let mut descriptor = vec![tag, len as u8];
        descriptor.extend(self.random.fill(len, |random| random.next() as u8));
        if descriptor == REGISTRATION {
            return Vec::new();
        }
        descriptor
    }

    fn video(&mut self) -> [u8; 6] {
        let mut fields = [0; 10];
        for (value, field) in fields.iter_mut().zip(&descriptor::FIELDS) {
            *value = self.random.below(1 << field.width) as u8;
        }
        let mut video = descriptor::write(&fields, 6).expect("the fields are inside their widths");
        if self.random.one_in(2) {
            // As old recordings have it: a delay.
            video[5] |= 0x10 | self.random.below(16) as u8;
            self.has("video descriptor with delay");
        }
        video
    }

    /// The class of a PID at this moment, by what was put so far.
    fn class(&self, pid: u16) -> Class {
        if pid == NULL {
            Class::Null
        } else if pid == 0 || (self.with_pat && pid == self.map_pid) {
            Class::Section
        } else if self.with_pmt && pid == self.av1_pid {
            Class::Av1
        } else if self.with_pmt && self.pids.contains(&pid) {
            Class::OtherListed
        } else {
            Class::Unlisted
        }
    }

    /// Puts a packet. Where its counter is not looked at, any counter; sometimes a discontinuity,
    /// other flags and other stuffing.
    fn put(&mut self, mut packet: Packet) {
        let class = self.class(packet.pid);
        self.totals.add(class);
        // With flags the adaptation field has two bytes or more.
        let room = match &packet.load {
            Load::Bytes(bytes) => BEHIND_HEADER - bytes.len(),
            Load::Section(section) => BEHIND_HEADER - section.bytes().len(),
            Load::Nothing => BEHIND_HEADER,
        };
        packet.stuffing = self.random.pick(&[0xFF, 0xFF, 0, 0x47, 0x10]);
        if class != Class::Null && room >= 8 && room >= packet.least_field() {
            if self.random.one_in(8) {
                packet.flags |= 0x80;
                packet.counter = Some(self.random.below(16) as u8);
                self.has("discontinuity");
            }
            if self.random.one_in(8) {
                packet.flags |= self.random.next() as u8 & 0x6F;
                self.has("other adaptation flags");
            }
        }
        if class == Class::Unlisted || class == Class::Null {
            packet.counter = Some(self.random.below(16) as u8);
        }
        if let Load::Bytes(bytes) = &packet.load {
            match BEHIND_HEADER - bytes.len() {
                0 => {}
                1 => self.has("stuffing of one byte"),
                _ => self.has("stuffing of several bytes"),
            }
        }
        self.packets.push(packet);
    }

    fn put_section(&mut self, pid: u16, with_pcr: bool) {
        let body = if pid == 0 { &self.pat } else { &self.pmt };
        let mut packet = Packet::section(pid, body.clone());
        let left = BEHIND_HEADER - 1 - body.len() - 4;
        if with_pcr && left >= 8 {
            packet.pcr = Some(self.pcr());
            self.has("PCR with payload");
        } else if left > 0 && self.random.one_in(3) {
            packet.field = 1 + self.random.below(left);
            self.has("section beside an adaptation field");
        }
        self.put(packet);
    }

    fn pcr(&mut self) -> (u64, u64) {
        self.clock += self.random.below(3000) as u64;
        let extension = match self.random.below(4) {
            0 => 0,
            1 => 299,
            _ => self.random.below(300) as u64,
        };
        (self.clock & 0x1_FFFF_FFFF, extension)
    }

    /// A payload of any bytes and any length.
    fn any_payload(&mut self, least_field: usize) -> Load {
        let most = BEHIND_HEADER - least_field;
        let len = match self.random.below(4) {
            0 => 1 + self.random.below(most),
            1 if most > 1 => most - 1,
            _ => most,
        };
        Load::Bytes(self.random.fill(len, |random| random.next() as u8))
    }

    /// A packet that makes no difference.
    fn noise(&mut self) {
        match self.random.below(9) {
            0 => {
                self.put(Packet::null());
                self.has("null packet");
            }
            1 => {
                // Of a null packet but two bits of the header nothing is looked at.
                let mut packet = Packet::null();
                for at in 3..188 {
                    packet.patches.push((at, self.random.next() as u8));
                }
                packet.start = self.random.one_in(2);
                self.put(packet);
                self.has("null packet, wild");
            }
            2 => {
                let pid = self.unlisted_pid();
                self.any_packet(pid);
                self.has("unlisted PID");
            }
            3 if !self.with_pat => {
                self.any_packet(self.map_pid);
                self.has("map PID before the PAT");
            }
            3 if !self.with_pmt => {
                let pid = self.random.pick(&self.pids);
                self.any_packet(pid);
                self.has("listed PID before the PMT");
            }
            3 | 4 => {
                let pid = self.random.pick(&self.pids);
                if self.with_pmt && pid != self.av1_pid {
                    self.any_packet(pid);
                    self.has("other listed PID");
                }
            }
            5 if self.with_pat => {
                self.put_section(0, false);
                self.has("PAT repeated");
            }
            6 if self.with_pmt => {
                self.put_section(self.map_pid, false);
                self.has("PMT repeated");
            }
            7 => {
                let pid = self.random.pick(&[0, self.map_pid, self.av1_pid]);
                self.without_payload(pid);
            }
            _ => {
                let pid = self.random.pick(&self.pids);
                self.without_payload(pid);
            }
        }
    }

    fn any_packet(&mut self, pid: u16) {
        let with_pcr = self.random.one_in(5);
        let load = self.any_payload(if with_pcr { 8 } else { 0 });
        let mut packet = Packet::new(pid, self.random.one_in(2), load);
        if with_pcr {
            packet.pcr = Some(self.pcr());
        }
        self.put(packet);
    }

    fn without_payload(&mut self, pid: u16) {
        let feature = match self.class(pid) {
            Class::Section if pid == 0 => "without payload: PID 0",
            Class::Section => "without payload: map PID",
            Class::Av1 => "without payload: AV1 PID",
            Class::OtherListed => "without payload: other listed PID",
            _ => "unlisted PID",
        };
        let mut packet = Packet::new(pid, self.random.one_in(3), Load::Nothing);
        if packet.start {
            self.has("payload start without payload");
        }
        if self.random.one_in(3) {
            packet.pcr = Some(self.pcr());
        }
        self.put(packet);
        self.has(feature);
    }

    fn some_noise(&mut self, one_in: usize) {
        while !self.random.one_in(one_in) {
            self.noise();
        }
    }

    fn go(&mut self, unit_count: usize, longest: usize) {
        self.some_noise(2);
        self.put_section(0, false);
        self.with_pat = true;
        self.some_noise(2);
        self.put_section(self.map_pid, false);
        self.with_pmt = true;
        self.some_noise(2);
        // The PCR that the first unit needs, which may stand in its own first packet.
        let in_start = self.pcr_pid == self.av1_pid && self.random.one_in(2);
        if unit_count > 0 && !in_start {
            self.put_pcr();
        }
        for index in 0..unit_count {
            self.put_unit(longest, in_start && index == 0);
            self.some_noise(2);
        }
    }

    fn put_pcr(&mut self) {
        let pid = self.pcr_pid;
        let section = pid == 0 || pid == self.map_pid;
        if section && self.random.one_in(2) {
            let body = if pid == 0 { &self.pat } else { &self.pmt };
            if BEHIND_HEADER - 1 - body.len() - 4 >= 8 {
                self.put_section(pid, true);
                return;
            }
        }
        let with_payload = !section && pid != self.av1_pid && self.random.one_in(2);
        let load = if with_payload {
            self.has("PCR with payload");
            self.any_payload(8)
        } else {
            self.has("PCR alone");
            Load::Nothing
        };
        let mut packet = Packet::new(pid, false, load);
        packet.pcr = Some(self.pcr());
        self.put(packet);
    }

    /// A PES of any unit, which is noted.
    fn any_pes(&mut self, longest: usize) -> Pes {
        let most = 1 + self.random.below(5);
        let list = any_list(self.random, most.max(2), longest);
        let unit = carry_closed(self.random, &list);
        let pts = self.random.next() >> 31;
        let dts = if self.random.one_in(2) {
            self.has("DTS");
            Some(self.random.next() >> 31)
        } else {
            self.has("no DTS");
            None
        };
        let mut pes = Pes::new(pts, dts, &unit);
        if self.random.one_in(4) {
            pes.stuffing = self.random.below(60);
            self.has("PES header stuffing");
        }
        if self.random.one_in(4) {
            pes.bits = (self.random.next() as u8, self.random.next() as u8);
            self.has("other PES flags");
        }
        pes.with_length = self.random.one_in(2);
        self.has(if pes.with_length {
            "PES length exact"
        } else {
            "PES length 0"
        });
        self.units.push(Unit {
            bytes: unit,
            pts,
            dts: dts.unwrap_or(pts),
        });
        pes
    }

    fn put_unit(&mut self, longest: usize, with_pcr: bool) {
        let pes = self.any_pes(longest);
        let bytes = pes.bytes();
        let mut rest = &bytes[..];
        let mut count = 0;
        let short = self.random.one_in(3);
        while !rest.is_empty() {
            let pcr =
                with_pcr && count == 0 || self.pcr_pid == self.av1_pid && self.random.one_in(10);
            let most = BEHIND_HEADER - if pcr { 8 } else { 0 };
            let least = if count == 0 { pes.header_size() } else { 1 };
            let len = if short && self.random.one_in(2) {
                least + self.random.below(most - least + 1)
            } else if self.random.one_in(8) {
                most - 1
            } else {
                most
            };
            let (part, after) = rest.split_at(len.min(rest.len()));
            rest = after;
            let load = Load::Bytes(part.to_vec());
            let mut packet = Packet::new(self.av1_pid, count == 0, load);
            if count == 0 {
                self.listing.first_packets.push(self.packets.len());
            }
            if pcr {
                packet.pcr = Some(self.pcr());
                self.has("PCR with payload");
                if count == 0 {
                    self.has("PCR at a unit's start");
                }
            }
            self.put(packet);
            count += 1;
            if !rest.is_empty() {
                self.some_noise(3);
            }
        }
        self.has(if count == 1 {
            "PES in one packet"
        } else if count > 3 {
            "PES over many packets"
        } else {
            "PES in a few packets"
        });
    }
}
