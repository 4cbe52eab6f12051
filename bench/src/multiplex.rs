//! Segments to measure on: one program with AV1 and audio, put together by the second program.

use crate::access_unit::{Sizes, Units};
use crate::input::{Clip, Kind, MAX_UNITS};
use av1ts::segment::Segment;
use reference::compose::{BEHIND_HEADER, Entry, Load, Packet, Pes, pat, pmt, segment};

pub const PACKET_BYTES: usize = 188;

/// A segment of 12 MB.
pub const PACKETS: usize = 12_000_000 / PACKET_BYTES;

/// 240 units of 40,000 bytes are 9.6 seconds of video at 8 Mbit/s.
const UNITS: usize = 240;
const UNIT_BYTES: usize = 40_000;

const PROGRAM: u16 = 1;
const PAT_PID: u16 = 0;
const MAP_PID: u16 = 0x0100;
pub const AV1_PID: u16 = 0x0101;
const AUDIO_PID: u16 = 0x0102;
const NULL_PID: u16 = 0x1FFF;

/// samples/clip.ts has the same.
const VIDEO_DESCRIPTOR: [u8; 6] = [0x80, 0x04, 0x81, 0x00, 0x0C, 0xC0];

/// PAT and PMT come before every unit of so many.
const UNITS_A_TABLE: usize = 4;

/// After so many AV1 packets of a unit come one of audio and a null packet.
const AV1_PACKETS_IN_A_ROW: usize = 15;

/// Bytes behind the header that a PCR takes.
const PCR_BYTES: usize = 8;

/// 25 units a second, in ticks of 90 kHz.
const UNIT_TICKS: u64 = 3_600;
const DTS_AFTER_PCR: u64 = 90_000;
const PTS_AFTER_DTS: u64 = 7_200;

/// A segment, and what its check has to give.
#[derive(Default)]
pub struct Multiplex {
    pub segment: Vec<u8>,
    pub units: Vec<u8>,
    pub lengths: Vec<usize>,
    pub times: Vec<u64>,
    pub figures: Segment,
}

impl AsRef<[u8]> for Multiplex {
    fn as_ref(&self) -> &[u8] {
        &self.segment
    }
}

/// 12 MB with units of 40,000 bytes, or one of so many parts of it.
pub fn long_units(kind: Kind, part: usize, clip: &Clip) -> Multiplex {
    long_units_with(Sizes::Present, kind, part, clip)
}

/// The same, of OBUs that say their sizes or not.
pub fn long_units_with(sizes: Sizes, kind: Kind, part: usize, clip: &Clip) -> Multiplex {
    let units = Units::with(sizes, UNITS / part, kind, UNIT_BYTES, clip).carried;
    filled(&units, PACKETS / part)
}

/// The clip's own units, again and again, as many as a segment can have.
pub fn small_units(clip: &Clip) -> Multiplex {
    let units: Vec<Vec<u8>> = clip.units.iter().cycle().take(MAX_UNITS).cloned().collect();
    filled(&units, 0)
}

/// One unit of the clip, and null packets up to so many packets.
pub fn nulls(packets: usize, clip: &Clip) -> Multiplex {
    filled(&clip.units[..1], packets)
}

/// So many packets, with units of 10,000 bytes, one to 66 packets.
pub fn of_packets(packets: usize, kind: Kind, clip: &Clip) -> Multiplex {
    let units = Units::new(packets / 66, kind, 10_000, clip).carried;
    filled(&units, packets)
}

/// As many of the units as fit into so many packets, or all where it is 0, then null packets.
fn filled(units: &[Vec<u8>], packets: usize) -> Multiplex {
    let mut m = Multiplex::default();
    let mut all = Vec::new();
    for (number, unit) in units.iter().enumerate() {
        let tables = if number % UNITS_A_TABLE == 0 {
            tables()
        } else {
            Vec::new()
        };
        let carrying = unit_packets(unit, times(number));
        if packets > 0 && all.len() + tables.len() + carrying.len() > packets {
            break;
        }
        all.extend(tables);
        all.extend(carrying);
        m.expect(unit, times(number));
    }
    all.resize_with(all.len().max(packets), Packet::null);
    m.segment = segment(&all);
    m.figures = figures(m.lengths.len(), &all);
    m
}

impl Multiplex {
    /// The check has to give this unit next.
    fn expect(&mut self, unit: &[u8], times: Times) {
        self.units.extend(unit);
        self.lengths.push(unit.len());
        self.times.extend([times.pts, times.dts]);
    }
}

/// When a unit is sent, decoded and shown.
#[derive(Clone, Copy)]
struct Times {
    pcr: u64,
    dts: u64,
    pts: u64,
}

fn times(number: usize) -> Times {
    let pcr = UNIT_TICKS * number as u64;
    let dts = pcr + DTS_AFTER_PCR;
    let pts = dts + PTS_AFTER_DTS;
    Times { pcr, dts, pts }
}

/// The packets of a unit; its first has a PCR.
fn unit_packets(unit: &[u8], times: Times) -> Vec<Packet> {
    let pes = Pes::new(times.pts, Some(times.dts), unit).bytes();
    let (first, rest) = pes.split_at(pes.len().min(BEHIND_HEADER - PCR_BYTES));
    let mut packets = vec![Packet {
        pcr: Some((times.pcr, 0)),
        ..av1_packet(first, true)
    }];
    for part in rest.chunks(AV1_PACKETS_IN_A_ROW * BEHIND_HEADER) {
        let full = part.chunks(BEHIND_HEADER);
        packets.extend(full.map(|bytes| av1_packet(bytes, false)));
        if part.len() == AV1_PACKETS_IN_A_ROW * BEHIND_HEADER {
            let audio = Load::Bytes(vec![0x55; BEHIND_HEADER]);
            packets.push(Packet::new(AUDIO_PID, false, audio));
            packets.push(Packet::null());
        }
    }
    packets
}

fn av1_packet(bytes: &[u8], start: bool) -> Packet {
    Packet::new(AV1_PID, start, Load::Bytes(bytes.to_vec()))
}

/// The PCR PID is the AV1 one.
fn tables() -> Vec<Packet> {
    let av1 = Entry::av1(AV1_PID, &VIDEO_DESCRIPTOR);
    let audio = Entry::new(0x0F, AUDIO_PID, &[]);
    vec![
        Packet::section(PAT_PID, pat(&[(PROGRAM, MAP_PID)])),
        Packet::section(MAP_PID, pmt(PROGRAM, AV1_PID, &[], &[av1, audio])),
    ]
}

fn figures(units: usize, packets: &[Packet]) -> Segment {
    let of = |pid| packets.iter().filter(|packet| packet.pid == pid).count() as u64;
    Segment {
        program: PROGRAM.into(),
        pid: AV1_PID.into(),
        units: units as u64,
        null_packets: of(NULL_PID),
        section: of(PAT_PID) + of(MAP_PID),
        av1: of(AV1_PID),
        other_listed: of(AUDIO_PID),
        ..Segment::default()
    }
}
