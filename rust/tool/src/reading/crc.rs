//! The CRC of a section, so that the one that is due can be shown.

/// The CRC-32 of ISO/IEC 13818-1, Annex A.
pub fn crc(bytes: &[u8]) -> u32 {
    bytes.iter().fold(0xFFFF_FFFF, |register, byte| {
        (0..8).fold(register ^ u32::from(*byte) << 24, |register, _| {
            let feedback = if register >> 31 == 1 { 0x04C1_1DB7 } else { 0 };
            register << 1 ^ feedback
        })
    })
}
