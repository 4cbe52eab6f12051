//! The header of a PES.

use super::finding::Finding;
use super::{byte, pair, part, time};
use crate::hex;

/// What the header says.
#[derive(Clone, Copy, Debug)]
pub struct Pes {
    pub length: u16,
    /// Where the data begins.
    pub data_at: usize,
}

/// The header, as far as it can be taken apart.
pub fn read(payload: &[u8]) -> Pes {
    Pes {
        length: pair(payload, 4),
        data_at: 9 + usize::from(byte(payload, 8)),
    }
}

/// The 33 bits of a time stamp.
fn stamp(payload: &[u8], at: usize) -> u64 {
    let high = u64::from(byte(payload, at) >> 1 & 7);
    let middle = u64::from(pair(payload, at + 1) >> 1);
    let low = u64::from(pair(payload, at + 3) >> 1);
    high << 30 | middle << 15 | low
}

/// Whether a time stamp has its prefix and its marker bits.
fn stamped(payload: &[u8], at: usize, prefix: u8) -> bool {
    byte(payload, at) >> 4 == prefix
        && [at, at + 2, at + 4]
            .iter()
            .all(|at| byte(payload, *at) & 1 == 1)
}

/// The header field by field.
pub fn findings(payload: &[u8], untimed: bool) -> Vec<Finding> {
    let bits = byte(payload, 6);
    let id = byte(payload, 3);
    let head = part(payload, 0, 3);
    let mut found = vec![
        Finding::new("packet_start_code_prefix", hex::show(head))
            .wrong_if(head != [0, 0, 1], "00 00 01 is due"),
        Finding::new("stream_id", format!("0x{id:02X}"))
            .wrong_if(id != 0xBD, "0xBD (private_stream_1) is due"),
        Finding::new("PES_packet_length", pair(payload, 4)),
        Finding::new("the bits behind it", format!("{:02b}", bits >> 6))
            .wrong_if(bits >> 6 != 2, "10 is due"),
        Finding::new("PES_scrambling_control", format!("{:02b}", bits >> 4 & 3))
            .wrong_if(bits >> 4 & 3 != 0, "00 is due"),
        Finding::new("data_alignment_indicator", bits >> 2 & 1)
            .wrong_if(bits >> 2 & 1 == 0, "1 is due: each PES is one unit"),
    ];
    found.extend(times(payload, untimed));
    let data_at = read(payload).data_at;
    found.push(
        Finding::new("header", format!("{data_at} bytes of {}", payload.len()))
            .wrong_if(data_at > payload.len(), "it ends in the first packet"),
    );
    found.push(Finding::new(
        "data",
        hex::front(part(payload, data_at, payload.len()), 16),
    ));
    found
}

/// The lines of the time stamps.
fn times(payload: &[u8], untimed: bool) -> Vec<Finding> {
    let flags = byte(payload, 7) >> 6;
    let room = byte(payload, 8);
    let least = match flags {
        2 => 5,
        3 => 10,
        _ => 0,
    };
    let mut found = vec![
        Finding::new("PTS_DTS_flags", format!("{flags:02b}"))
            .wrong_if(flags == 1, "01 is forbidden")
            .wrong_if(flags == 0 && !untimed, "each unit has a PTS"),
        Finding::new("PES_header_data_length", room)
            .wrong_if(room < least, format!("the time stamps take {least}")),
    ];
    let marks = "prefix or marker bits wrong";
    if flags & 2 == 2 {
        let prefix = flags;
        found.push(
            Finding::new("PTS", time(stamp(payload, 9)))
                .wrong_if(!stamped(payload, 9, prefix), marks),
        );
    }
    if flags == 3 {
        found.push(
            Finding::new("DTS", time(stamp(payload, 14))).wrong_if(!stamped(payload, 14, 1), marks),
        );
    }
    found
}
