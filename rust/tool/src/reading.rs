//! The tool's own reading of packets, tables, PES headers and OBUs. It is for display alone: no
//! verdict comes from it, and it takes any bytes.

pub mod crc;
pub mod finding;
pub mod obu;
pub mod order;
pub mod packet;
pub mod pat;
pub mod pes;
pub mod pmt;
pub mod scan;
pub mod section;
pub mod sequence;

/// The byte at a place, 0 behind the end.
pub fn byte(bytes: &[u8], at: usize) -> u8 {
    bytes.get(at).copied().unwrap_or(0)
}

/// The two bytes at a place, high byte first.
pub fn pair(bytes: &[u8], at: usize) -> u16 {
    u16::from(byte(bytes, at)) << 8 | u16::from(byte(bytes, at + 1))
}

/// What stands from a place on, up to another, as far as there are bytes.
pub fn part(bytes: &[u8], from: usize, to: usize) -> &[u8] {
    let to = to.min(bytes.len());
    &bytes[from.min(to)..to]
}

/// A PID as it is shown.
pub fn pid(pid: u16) -> String {
    format!("{pid} (0x{pid:04X})")
}

/// Ticks of 90 kHz with their seconds.
pub fn time(ticks: u64) -> String {
    format!("{ticks} ({} s)", seconds(ticks, 90_000))
}

/// Ticks in seconds, with six digits behind the point.
pub fn seconds(ticks: u64, rate: u64) -> String {
    let rest = u128::from(ticks % rate) * 1_000_000 / u128::from(rate);
    format!("{}.{rest:06}", ticks / rate)
}

/// A number of things.
pub fn counted(count: usize, thing: &str) -> String {
    match count {
        1 => format!("1 {thing}"),
        count => format!("{count} {thing}s"),
    }
}
