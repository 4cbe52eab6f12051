//! The bit rates of AV1's levels (AV1, Annex A), for a rate where none is given.

/// seq_level_idx, and kilobits a second of the main and of the high tier.
const RATES: [(u64, u64, u64); 14] = [
    (0, 1_500, 1_500),
    (1, 3_000, 3_000),
    (4, 6_000, 6_000),
    (5, 10_000, 10_000),
    (8, 12_000, 30_000),
    (9, 20_000, 50_000),
    (12, 30_000, 100_000),
    (13, 40_000, 160_000),
    (14, 60_000, 240_000),
    (15, 60_000, 240_000),
    (16, 60_000, 240_000),
    (17, 100_000, 480_000),
    (18, 160_000, 800_000),
    (19, 160_000, 800_000),
];

/// The most bits a second of a profile, level and tier.
fn bit_rate(profile: u64, level: u64, tier: u64) -> Option<u64> {
    let (_, main, high) = RATES.iter().find(|(index, _, _)| *index == level)?;
    let rate = if tier == 1 { high } else { main };
    Some(rate * 1_000 * (profile + 1))
}

/// The rate from the transport buffer on: 1.1 times the bit rate.
pub fn transfer_rate(profile: u64, level: u64, tier: u64) -> Option<u64> {
    bit_rate(profile, level, tier).map(|rate| rate / 10 * 11)
}
