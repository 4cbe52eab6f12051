//! Sending: the packets of the queued units.
//!
//! "Send writes PAT, PMT with one AV1 entry (registration, then the caller's video descriptor bytes
//! as given), a PCR in a packet without payload on the AV1 PID, which is the PCR PID, then one PES
//! a unit in as few packets as possible, only the last stuffed, by adaptation field." "Fields left
//! free are 0, reserved bits 1, stuffing 0xFF."

use crate::crc::crc;
use crate::descriptor::{self, REGISTRATION};
use crate::obu;
use crate::packet::SIZE;
use crate::queue::{Queue, Queued};
use crate::refusal::{OUTPUT_TOO_SHORT, Refusal};
use crate::segment::MOST_PACKETS;
use crate::unit::payloads;

/// "PIDs, program number, PCR and each PID's counter for its next payload come from the caller".
#[derive(Clone, Copy, Debug, PartialEq, Eq)]
pub struct Channel {
    pub program: u64,
    pub map_pid: u64,
    pub av1_pid: u64,
    /// Ticks of 27 MHz.
    pub pcr: u64,
    pub pat_counter: u64,
    pub map_counter: u64,
    pub av1_counter: u64,
}

/// The ticks at which a PCR begins anew: a base of 33 bits, 300 ticks each.
pub const PCR_END: u64 = (1 << 33) * 300;

/// The conditions of 52 and 53.
pub const CONDITIONS: &[&str] = &[
    "52: descriptor",
    "52: map PID below 0010",
    "52: map PID above 1FFE",
    "52: AV1 PID 0",
    "52: AV1 PID above 1FFE",
    "52: AV1 PID is the map PID",
    "52: program 0",
    "52: program above 65,535",
    "52: PAT counter above 15",
    "52: map counter above 15",
    "52: AV1 counter above 15",
    "52: PCR past its end",
    "53: more than 65,535 packets",
];

/// "52 descriptor, PID, program number, counter or PCR not allowed by 01".
fn not_allowed(channel: &Channel, descriptor: &[u8]) -> Option<&'static str> {
    if descriptor::read(descriptor).is_err() {
        return Some("52: descriptor");
    }
    // "map PID 0x0010 to 0x1FFE"
    if channel.map_pid < 0x0010 {
        return Some("52: map PID below 0010");
    }
    if channel.map_pid > 0x1FFE {
        return Some("52: map PID above 1FFE");
    }
    // "none equal to 0, 0x1FFF or the map PID"
    if channel.av1_pid == 0 {
        return Some("52: AV1 PID 0");
    }
    if channel.av1_pid > 0x1FFE {
        return Some("52: AV1 PID above 1FFE");
    }
    if channel.av1_pid == channel.map_pid {
        return Some("52: AV1 PID is the map PID");
    }
    // "exactly one program not 0"
    if channel.program == 0 {
        return Some("52: program 0");
    }
    if channel.program > 0xFFFF {
        return Some("52: program above 65,535");
    }
    if channel.pat_counter > 15 {
        return Some("52: PAT counter above 15");
    }
    if channel.map_counter > 15 {
        return Some("52: map counter above 15");
    }
    if channel.av1_counter > 15 {
        return Some("52: AV1 counter above 15");
    }
    if channel.pcr >= PCR_END {
        return Some("52: PCR past its end");
    }
    None
}

/// What a send gives: the packets, and "hands the next counters back".
#[derive(Clone, Debug, PartialEq, Eq)]
pub struct Sent {
    pub bytes: Vec<u8>,
    pub packets: usize,
    pub next: Channel,
}

/// Tries 52, 53, then 8 for the output. What is sent leaves the queue empty, which is the caller's
/// part.
pub fn send(
    queue: &Queue,
    channel: &Channel,
    descriptor: &[u8],
    room: usize,
) -> Result<Sent, Refusal> {
    if let Some(condition) = not_allowed(channel, descriptor) {
        return Err(Refusal::new(52, 0, condition));
    }
    let mut sending = Sending {
        bytes: Vec::new(),
        next: *channel,
    };
    sending.pat();
    sending.pmt(descriptor);
    sending.pcr();
    for unit in &queue.units {
        sending.unit(unit);
    }
    let packets = sending.bytes.len() / SIZE;
    if packets > MOST_PACKETS {
        return Err(Refusal::new(53, 0, "53: more than 65,535 packets"));
    }
    if sending.bytes.len() > room {
        return Err(Refusal::new(8, 0, OUTPUT_TOO_SHORT));
    }
    Ok(Sent {
        packets,
        bytes: sending.bytes,
        next: sending.next,
    })
}

/// "payload" and "adaptation field" bits of the header's fourth byte.
const PAYLOAD: u8 = 0x10;
const FIELD: u8 = 0x20;

/// The flags of an adaptation field.
const RANDOM_ACCESS: u8 = 0x40;
const PRIORITY: u8 = 0x20;
const WITH_PCR: u8 = 0x10;

struct Sending {
    bytes: Vec<u8>,
    next: Channel,
}

/// A counter, which then goes on.
fn count(counter: &mut u64) -> u8 {
    let now = *counter;
    *counter = (now + 1) % 16;
    now as u8
}

impl Sending {
    /// A packet's header: no error, priority 0, not scrambled.
    fn header(&mut self, start: bool, pid: u64, control: u8, counter: u8) {
        let start_bit = if start { 0x4000 } else { 0 };
        let second_and_third = start_bit | pid as u16;
        self.bytes.push(0x47);
        self.bytes.extend(second_and_third.to_be_bytes());
        self.bytes.push(control | counter);
    }

    /// "pointer 0, the section ends in that packet, 0xFF fills the rest"
    fn section(&mut self, pid: u64, counter: u8, body: &[u8]) {
        let begin = self.bytes.len();
        self.header(true, pid, PAYLOAD, counter);
        self.bytes.push(0);
        self.bytes.extend_from_slice(body);
        self.bytes.extend(crc(body).to_be_bytes());
        self.bytes.resize(begin + SIZE, 0xFF);
    }

    /// Table 0: transport_stream_id and version 0, one program.
    fn pat(&mut self) {
        let counter = count(&mut self.next.pat_counter);
        // Behind the length: eight bytes and, last, the CRC's four.
        let mut body = vec![0x00, 0xB0, 5 + 4 + 4, 0x00, 0x00, 0xC1, 0x00, 0x00];
        body.extend((self.next.program as u16).to_be_bytes());
        body.extend((0xE000 | self.next.map_pid as u16).to_be_bytes());
        self.section(0, counter, &body);
    }

    /// Table 2: version 0, no program_info, one entry.
    fn pmt(&mut self, descriptor: &[u8]) {
        let counter = count(&mut self.next.map_counter);
        let (program, av1) = (self.next.program as u16, self.next.av1_pid as u16);
        let loop_length = (REGISTRATION.len() + descriptor.len()) as u8;
        let mut body = vec![0x02, 0xB0, 9 + 5 + loop_length + 4];
        body.extend(program.to_be_bytes());
        body.extend([0xC1, 0x00, 0x00]);
        body.extend((0xE000 | av1).to_be_bytes());
        body.extend([0xF0, 0x00]);
        body.push(0x06);
        body.extend((0xE000 | av1).to_be_bytes());
        body.extend([0xF0, loop_length]);
        body.extend_from_slice(&REGISTRATION);
        body.extend_from_slice(descriptor);
        self.section(self.next.map_pid, counter, &body);
    }

    /// "the PCR packet carries one less modulo 16"
    fn pcr(&mut self) {
        let begin = self.bytes.len();
        let counter = (self.next.av1_counter + 15) % 16;
        self.header(false, self.next.av1_pid, FIELD, counter as u8);
        self.bytes.extend([183, WITH_PCR]);
        let (base, extension) = (self.next.pcr / 300, self.next.pcr % 300);
        // 33 bits, six reserved ones, 9 bits.
        let bits = base << 15 | 0b111111 << 9 | extension;
        self.bytes.extend(&bits.to_be_bytes()[2..]);
        self.bytes.resize(begin + SIZE, 0xFF);
    }

    /// "one PES a unit in as few packets as possible, only the last stuffed, by adaptation field";
    /// "marked, its first packet has an adaptation field with random_access_indicator 1".
    fn unit(&mut self, unit: &Queued) {
        let pes = pes(unit);
        let mut rest = &pes[..];
        while !rest.is_empty() {
            let first = rest.len() == pes.len();
            let mark = first && unit.marked;
            // A field with flags takes two bytes.
            let most = SIZE - 4 - if mark { 2 } else { 0 };
            let (part, after) = rest.split_at(rest.len().min(most));
            let flags = if mark {
                mark_flags(unit, part.len())
            } else {
                0
            };
            self.part(part, first, flags);
            rest = after;
        }
    }

    /// A packet with a part of a PES.
    fn part(&mut self, part: &[u8], start: bool, flags: u8) {
        let begin = self.bytes.len();
        let counter = count(&mut self.next.av1_counter);
        let field = SIZE - 4 - part.len();
        let control = if field > 0 { FIELD | PAYLOAD } else { PAYLOAD };
        self.header(start, self.next.av1_pid, control, counter);
        if field > 0 {
            self.bytes.push(field as u8 - 1);
        }
        if field > 1 {
            self.bytes.push(flags);
        }
        self.bytes.resize(begin + 4 + field, 0xFF);
        self.bytes.extend_from_slice(part);
    }
}

/// "random_access_indicator 1, and elementary_stream_priority_indicator 1 where the start code of
/// its first type 3 or 6 OBU begins there".
fn mark_flags(unit: &Queued, payload: usize) -> u8 {
    let header = pes_header_size(unit);
    for part in payloads(&unit.bytes) {
        let start_code = header + part.start - 3;
        if matches!(obu::header(unit.bytes[part.start]).obu_type, 3 | 6) {
            return if start_code < payload {
                RANDOM_ACCESS | PRIORITY
            } else {
                RANDOM_ACCESS
            };
        }
    }
    RANDOM_ACCESS
}

fn pes_header_size(unit: &Queued) -> usize {
    if unit.dts == unit.pts { 14 } else { 19 }
}

/// "DTS is written where it differs from PTS; a PES length above 65,535 is written as 0."
pub fn pes(unit: &Queued) -> Vec<u8> {
    let with_dts = unit.dts != unit.pts;
    let size = pes_header_size(unit);
    let length = size - 6 + unit.bytes.len();
    let mut pes = vec![0x00, 0x00, 0x01, 0xBD];
    pes.extend(u16::try_from(length).unwrap_or(0).to_be_bytes());
    // '10', not scrambled, priority 0, data_alignment_indicator 1, copyright 0, original_or_copy 0.
    pes.push(0b1000_0100);
    if with_dts {
        pes.extend([0b1100_0000, 10]);
        time(&mut pes, 0b0011, unit.pts);
        time(&mut pes, 0b0001, unit.dts);
    } else {
        pes.extend([0b1000_0000, 5]);
        time(&mut pes, 0b0010, unit.pts);
    }
    pes.extend_from_slice(&unit.bytes);
    pes
}

/// Four bits of prefix, then 3, 15 and 15 bits of the time, each with a marker behind.
fn time(pes: &mut Vec<u8>, prefix: u8, ticks: u64) {
    let high = (ticks >> 30) as u8 & 7;
    let middle = (ticks >> 15) as u16 & 0x7FFF;
    let low = ticks as u16 & 0x7FFF;
    pes.push(prefix << 4 | high << 1 | 1);
    pes.extend((middle << 1 | 1).to_be_bytes());
    pes.extend((low << 1 | 1).to_be_bytes());
}
