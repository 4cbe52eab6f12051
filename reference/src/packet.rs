//! One transport packet: its header and adaptation field (13818-1, 2.4.3.2 to 2.4.3.5), and the
//! refusals 21, 22 and 23.

use crate::refusal::Refusal;

/// Bytes of a packet.
pub const SIZE: usize = 188;

/// The PID of null packets.
pub const NULL: u16 = 0x1FFF;

/// The highest PCR extension.
const MOST_EXTENSION: u64 = 299;

/// What the rules look at in a packet. Of a null packet nothing but its PID.
#[derive(Clone, Copy, Debug, PartialEq, Eq)]
pub struct Packet<'a> {
    pub pid: u16,
    pub payload_start: bool,
    pub counter: u8,
    pub discontinuity: bool,
    /// Ticks of 27 MHz.
    pub pcr: Option<u64>,
    /// "The payload of a packet is what follows its header and adaptation field."
    pub payload: Option<&'a [u8]>,
}

/// The conditions of 21, 22 and 23.
pub const CONDITIONS: &[&str] = &[
    "21: first byte is not 47",
    "22: transport error",
    "23: scrambling",
    "23: adaptation control 00",
    "23: adaptation length not 183",
    "23: adaptation length above 182",
    "23: PCR in under 7 bytes",
    "23: PCR extension above 299",
];

/// Reads the packet of the given index, which has 188 bytes.
pub fn read(bytes: &[u8], index: usize) -> Result<Packet<'_>, Refusal> {
    let refused = |number, condition| Err(Refusal::new(number, index, condition));
    if bytes[0] != 0x47 {
        return refused(21, "21: first byte is not 47");
    }
    if bytes[1] & 0x80 != 0 {
        return refused(22, "22: transport error");
    }
    let pid = u16::from_be_bytes([bytes[1], bytes[2]]) & 0x1FFF;
    let mut packet = Packet {
        pid,
        payload_start: bytes[1] & 0x40 != 0,
        counter: bytes[3] & 0x0F,
        discontinuity: false,
        pcr: None,
        payload: None,
    };
    // "not on PID 0x1FFF"
    if pid == NULL {
        return Ok(packet);
    }
    if bytes[3] & 0xC0 != 0 {
        return refused(23, "23: scrambling");
    }
    let control = bytes[3] >> 4 & 3;
    let field: &[u8] = match control {
        0b00 => return refused(23, "23: adaptation control 00"),
        0b01 => {
            packet.payload = Some(&bytes[4..]);
            return Ok(packet);
        }
        0b10 => {
            if bytes[4] != 183 {
                return refused(23, "23: adaptation length not 183");
            }
            &bytes[5..]
        }
        _ => {
            if bytes[4] > 182 {
                return refused(23, "23: adaptation length above 182");
            }
            let end = 5 + usize::from(bytes[4]);
            packet.payload = Some(&bytes[end..]);
            &bytes[5..end]
        }
    };
    // A field of length 0 has no flags.
    if let Some(&flags) = field.first() {
        packet.discontinuity = flags & 0x80 != 0;
        if flags & 0x10 != 0 {
            let pcr = clock(field).map_err(|condition| Refusal::new(23, index, condition))?;
            packet.pcr = Some(pcr);
        }
    }
    Ok(packet)
}

/// The PCR of an adaptation field that has one: 33 bits of base, 6 reserved, 9 of extension.
fn clock(field: &[u8]) -> Result<u64, &'static str> {
    if field.len() < 7 {
        return Err("23: PCR in under 7 bytes");
    }
    let mut bits: u64 = 0;
    for &byte in &field[1..7] {
        bits = bits << 8 | u64::from(byte);
    }
    let (base, extension) = (bits >> 15, bits & 0x1FF);
    if extension > MOST_EXTENSION {
        return Err("23: PCR extension above 299");
    }
    Ok(base * 300 + extension)
}
