//! The kinds of bytes that are measured, the same in every run.

use av1ts::segment::check_segment;
use av1ts::unit::read_unit;
use std::iter::{Copied, Cycle};
use std::slice::Iter;

const CLIP: &[u8] = include_bytes!("../../samples/clip.ts");

/// As many units as a segment can have.
pub const MAX_UNITS: usize = 1_024;

/// As many OBUs as a unit can have.
pub const MAX_OBUS: usize = 64;

/// splitmix64.
struct Random(u64);

impl Random {
    fn byte(&mut self) -> u8 {
        self.0 = self.0.wrapping_add(0x9E37_79B9_7F4A_7C15);
        let mut x = self.0;
        x = (x ^ (x >> 30)).wrapping_mul(0xBF58_476D_1CE4_E5B9);
        x = (x ^ (x >> 27)).wrapping_mul(0x94D0_49BB_1331_11EB);
        ((x ^ (x >> 31)) >> 56) as u8
    }
}

/// The real AV1 of samples/clip.ts, taken out by the library.
pub struct Clip {
    /// The units as they are carried.
    pub units: Vec<Vec<u8>>,
    /// Their OBUs, one behind the other.
    obus: Vec<u8>,
}

impl Clip {
    pub fn read() -> Result<Clip, String> {
        let mut bytes = vec![0; CLIP.len()];
        let mut lengths = vec![0; MAX_UNITS];
        let mut times = vec![0; 2 * MAX_UNITS];
        let found = check_segment(CLIP, &mut bytes, &mut lengths, &mut times);
        if found.number != 0 || found.units == 0 {
            return Err(format!("samples/clip.ts gives {found:?}"));
        }
        let mut clip = Clip {
            units: Vec::new(),
            obus: Vec::new(),
        };
        let mut left = &bytes[..];
        for &length in &lengths[..found.units as usize] {
            let (unit, rest) = left.split_at(length);
            clip.add(unit)?;
            left = rest;
        }
        Ok(clip)
    }

    fn add(&mut self, unit: &[u8]) -> Result<(), String> {
        let mut obus = vec![0; unit.len()];
        let answer = read_unit(unit, &mut obus, &mut [0; MAX_OBUS]);
        if answer.number != 0 {
            return Err(format!("a unit of samples/clip.ts gives {answer:?}"));
        }
        self.units.push(unit.to_vec());
        self.obus.extend(&obus[..answer.bytes as usize]);
        Ok(())
    }
}

#[derive(Clone, Copy)]
pub enum Kind {
    Random,
    RealAv1,
    Zeros,
    ZeroToThree,
}

impl Kind {
    pub const ALL: [Kind; 4] = [Kind::Random, Kind::RealAv1, Kind::Zeros, Kind::ZeroToThree];

    pub fn name(self) -> &'static str {
        match self {
            Kind::Random => "random bytes",
            Kind::RealAv1 => "real AV1",
            Kind::Zeros => "zeros",
            Kind::ZeroToThree => "bytes 0 to 3",
        }
    }
}

/// Bytes of one kind without end; real AV1 begins again where the clip ends.
pub struct Source<'a> {
    kind: Kind,
    random: Random,
    real: Cycle<Copied<Iter<'a, u8>>>,
}

impl<'a> Source<'a> {
    pub fn new(kind: Kind, clip: &'a Clip) -> Source<'a> {
        Source {
            kind,
            random: Random(1),
            real: clip.obus.iter().copied().cycle(),
        }
    }

    pub fn bytes(&mut self, len: usize) -> Vec<u8> {
        match self.kind {
            Kind::Random => (0..len).map(|_| self.random.byte()).collect(),
            Kind::RealAv1 => self.real.by_ref().take(len).collect(),
            Kind::Zeros => vec![0; len],
            Kind::ZeroToThree => (0..len).map(|_| self.random.byte() & 3).collect(),
        }
    }
}

/// A length and its name.
pub type Size = (usize, &'static str);

/// The lengths of OBUs, payloads and units that are measured.
pub const SIZES: [Size; 4] = [
    (100, "100 B"),
    (1_024, "1 KiB"),
    (65_536, "64 KiB"),
    (1_048_576, "1 MiB"),
];

/// Those for which instructions are counted.
pub const COUNTED_SIZES: [Size; 2] = [SIZES[0], SIZES[2]];
