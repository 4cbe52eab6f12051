//! The PES header of the AV1 stream (13818-1, 2.4.3.6 and 2.4.3.7), and the refusals 29 and 30.

use crate::edition::{Edition, NO_TIME};
use crate::refusal::Refusal;

/// What a PES header says.
#[derive(Clone, Copy, Debug, PartialEq, Eq)]
pub struct Header {
    /// PES_packet_length.
    pub length: usize,
    /// The header's own bytes.
    pub size: usize,
    /// Ticks of 90 kHz; or no time, as the draft has it.
    pub pts: u64,
    /// "DTS is PTS where absent."
    pub dts: u64,
}

/// The conditions of 29 and 30 in a packet that starts a PES.
pub const CONDITIONS: &[&str] = &[
    "29: under 9 bytes",
    "29: prefix",
    "29: stream_id",
    "29: the bits 10",
    "29: scrambling",
    "29: no data_alignment",
    "29: header not whole in the packet",
    "29: flags 01",
    "29: length byte under 5",
    "29: length byte under 10",
    "29: PTS prefix",
    "29: PTS marker bits",
    "29: DTS prefix",
    "29: DTS marker bits",
    "30: flags 00",
];

/// Five bytes of a time: four bits of prefix, 3 bits of time and a marker, 15 and a marker, 15 and a
/// marker.
struct Time {
    prefix: u8,
    markers: bool,
    ticks: u64,
}

fn time(bytes: &[u8]) -> Time {
    let high = u64::from(bytes[0] >> 1 & 7);
    let middle = u16::from_be_bytes([bytes[1], bytes[2]]);
    let low = u16::from_be_bytes([bytes[3], bytes[4]]);
    Time {
        prefix: bytes[0] >> 4,
        markers: bytes[0] & 1 == 1 && middle & 1 == 1 && low & 1 == 1,
        ticks: high << 30 | u64::from(middle >> 1) << 15 | u64::from(low >> 1),
    }
}

/// "PES: 00 00 01 BD, the bits 10, scrambling 00, data_alignment 1, flags 10 or 11 (01 is 29, 00 is
/// 30), header whole in the first packet, length byte at least 5 or 10, PTS and DTS prefixes and
/// marker bits as in 13818-1." "Within a starting packet 29 comes before 30". Under draft
/// "PTS_DTS_flags 00 is accepted with any length byte".
pub fn header(payload: &[u8], edition: Edition, index: usize) -> Result<Header, Refusal> {
    let wrong = |condition| Err(Refusal::new(29, index, condition));
    if payload.len() < 9 {
        return wrong("29: under 9 bytes");
    }
    if payload[..3] != [0, 0, 1] {
        return wrong("29: prefix");
    }
    if payload[3] != 0xBD {
        return wrong("29: stream_id");
    }
    if payload[6] >> 6 != 0b10 {
        return wrong("29: the bits 10");
    }
    if payload[6] >> 4 & 3 != 0 {
        return wrong("29: scrambling");
    }
    if payload[6] >> 2 & 1 != 1 {
        return wrong("29: no data_alignment");
    }
    let length_byte = usize::from(payload[8]);
    if 9 + length_byte > payload.len() {
        return wrong("29: header not whole in the packet");
    }
    let length = usize::from(u16::from_be_bytes([payload[4], payload[5]]));
    let size = 9 + length_byte;
    let with_dts = match payload[7] >> 6 {
        0b00 if edition == Edition::Draft => {
            return Ok(Header {
                length,
                size,
                pts: NO_TIME,
                dts: NO_TIME,
            });
        }
        0b00 => return Err(Refusal::new(30, index, "30: flags 00")),
        0b01 => return wrong("29: flags 01"),
        0b10 => false,
        _ => true,
    };
    let times = times(payload, with_dts);
    let (pts, dts) = times.map_err(|condition| Refusal::new(29, index, condition))?;
    Ok(Header {
        length,
        size,
        pts,
        dts,
    })
}

/// PTS and DTS: "length byte at least 5 or 10, PTS and DTS prefixes and marker bits".
fn times(payload: &[u8], with_dts: bool) -> Result<(u64, u64), &'static str> {
    if !with_dts && payload[8] < 5 {
        return Err("29: length byte under 5");
    }
    if with_dts && payload[8] < 10 {
        return Err("29: length byte under 10");
    }
    let pts = time(&payload[9..14]);
    if pts.prefix != if with_dts { 0b0011 } else { 0b0010 } {
        return Err("29: PTS prefix");
    }
    if !pts.markers {
        return Err("29: PTS marker bits");
    }
    if !with_dts {
        return Ok((pts.ticks, pts.ticks));
    }
    let dts = time(&payload[14..19]);
    if dts.prefix != 0b0001 {
        return Err("29: DTS prefix");
    }
    if !dts.markers {
        return Err("29: DTS marker bits");
    }
    Ok((pts.ticks, dts.ticks))
}
