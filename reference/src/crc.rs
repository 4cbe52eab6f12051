//! The CRC of 13818-1 Annex A, bit by bit.

/// x^32 + x^26 + x^23 + x^22 + x^16 + x^12 + x^11 + x^10 + x^8 + x^7 + x^5 + x^4 + x^2 + x + 1
const POLYNOMIAL: u32 = 0x04C1_1DB7;

/// The content of the decoder's 32 delay elements after the bytes, the first bit first; they begin
/// as ones. Over a section with its right CRC_32 it is zero.
pub fn crc(bytes: &[u8]) -> u32 {
    let mut elements = 0xFFFF_FFFF;
    for &byte in bytes {
        for bit in (0..8).rev() {
            let input = u32::from(byte >> bit & 1);
            let feedback = elements >> 31 ^ input;
            elements <<= 1;
            if feedback == 1 {
                elements ^= POLYNOMIAL;
            }
        }
    }
    elements
}
