//! One access unit.

use super::{MOST_OBU_BYTES, MOST_OBUS, Refused};
use crate::unit;

/// The OBUs of an access unit.
#[derive(Clone, Debug, PartialEq, Eq)]
pub struct Unit {
    bytes: Vec<u8>,
    lengths: Vec<usize>,
    widths: Vec<usize>,
    dropped: usize,
}

impl Unit {
    /// The OBUs, in order.
    pub fn obus(&self) -> impl Iterator<Item = &[u8]> + '_ {
        let mut rest = &self.bytes[..];
        self.lengths.iter().map(move |&length| {
            let (obu, others) = rest.split_at(length);
            rest = others;
            obu
        })
    }

    /// How many bytes the size of each OBU takes, 0 where it has none.
    pub fn widths(&self) -> &[usize] {
        &self.widths
    }

    /// The bytes of all OBUs, back to back.
    pub fn bytes(&self) -> &[u8] {
        &self.bytes
    }

    /// How many bytes were dropped in all.
    pub fn dropped(&self) -> usize {
        self.dropped
    }
}

/// What reading a unit would give, in figures.
#[derive(Clone, Copy, Debug, PartialEq, Eq)]
pub struct UnitFigures {
    pub obus: usize,
    pub bytes: usize,
    pub dropped: usize,
}

/// The carried unit of OBUs: a start code and the escaped OBU, for each in turn. Of all strings that
/// read as these OBUs it is the shortest.
///
/// ```
/// let unit = av1ts::write_unit(&[&[0x12, 0][..], &[0x30, 0xAA]])?;
/// assert_eq!(unit, [0, 0, 1, 0x12, 0, 0, 0, 1, 0x30, 0xAA]);
/// # Ok::<(), av1ts::Refused>(())
/// ```
pub fn write_unit<T: AsRef<[u8]>>(obus: &[T]) -> Result<Vec<u8>, Refused> {
    let lengths: Vec<usize> = obus.iter().map(|obu| obu.as_ref().len()).collect();
    let mut bytes = Vec::new();
    for obu in obus {
        bytes.extend_from_slice(obu.as_ref());
    }
    let len = bytes.len().min(MOST_OBU_BYTES);
    let mut out = vec![0; len + len / 2 + 3 * obus.len().min(MOST_OBUS)];
    let answer = unit::write_unit(&bytes, &lengths, &mut out);
    Refused::check(answer.number, answer.place)?;
    out.truncate(answer.count as usize);
    Ok(out)
}

/// The OBUs of a carried unit.
///
/// ```
/// let unit = av1ts::read_unit(&[0, 0, 1, 0x12, 0, 0, 0, 1, 0x30, 0xAA])?;
/// let obus: Vec<&[u8]> = unit.obus().collect();
/// assert_eq!(obus, [&[0x12, 0], &[0x30, 0xAA]]);
///
/// let refused = av1ts::read_unit(&[0, 0, 1, 0x12, 0]).unwrap_err();
/// assert_eq!(refused.to_string(), "refused 7 at 1: the order of the OBUs is broken");
/// # Ok::<(), av1ts::Refused>(())
/// ```
pub fn read_unit(carried: &[u8]) -> Result<Unit, Refused> {
    let mut bytes = vec![0; carried.len().min(MOST_OBU_BYTES)];
    let mut lengths = vec![0; MOST_OBUS];
    let mut widths = vec![0; MOST_OBUS];
    let answer = unit::read_unit_widths(carried, &mut bytes, &mut lengths, &mut widths);
    Refused::check(answer.number, answer.place)?;
    bytes.truncate(answer.bytes as usize);
    lengths.truncate(answer.count as usize);
    widths.truncate(answer.count as usize);
    Ok(Unit {
        bytes,
        lengths,
        widths,
        dropped: answer.dropped as usize,
    })
}

/// The same verdict as that of `read_unit`, with nothing written.
///
/// ```
/// let figures = av1ts::check_unit(&[0, 0, 1, 0x30, 0, 0, 3])?;
/// assert_eq!((figures.obus, figures.bytes, figures.dropped), (1, 3, 1));
/// # Ok::<(), av1ts::Refused>(())
/// ```
pub fn check_unit(carried: &[u8]) -> Result<UnitFigures, Refused> {
    let answer = unit::check_unit(carried);
    Refused::check(answer.number, answer.place)?;
    Ok(UnitFigures {
        obus: answer.count as usize,
        bytes: answer.bytes as usize,
        dropped: answer.dropped as usize,
    })
}
