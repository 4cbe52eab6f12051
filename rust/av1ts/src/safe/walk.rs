//! The payloads of an access unit, where they lie.

use super::Refused;
use crate::walk::walk_step;

/// An iterator over the payloads of a carried unit, each a part of it. It ends behind the last
/// payload, or behind a refusal.
#[derive(Clone, Debug)]
pub struct Payloads<'a> {
    unit: &'a [u8],
    at: usize,
    ended: bool,
}

/// Walks over a carried unit, one payload at a time.
///
/// ```
/// let unit = [0, 0, 1, 0x12, 0, 0, 0, 1, 0x30, 0xAA];
/// let payloads = av1ts::payloads(&unit).collect::<Result<Vec<&[u8]>, _>>()?;
/// assert_eq!(payloads, [&unit[3..5], &unit[8..]]);
///
/// let mut damaged = av1ts::payloads(&[0, 0, 1, 0x12, 0, 0, 0, 1]);
/// assert_eq!(damaged.next(), Some(Ok(&[0x12, 0][..])));
/// let refused = damaged.next().unwrap().unwrap_err();
/// assert_eq!(refused.to_string(), "refused 3 at 1: an OBU has no bytes");
/// assert_eq!(damaged.next(), None);
/// # Ok::<(), av1ts::Refused>(())
/// ```
pub fn payloads(unit: &[u8]) -> Payloads<'_> {
    Payloads {
        unit,
        at: 0,
        ended: false,
    }
}

impl<'a> Iterator for Payloads<'a> {
    type Item = Result<&'a [u8], Refused>;

    fn next(&mut self) -> Option<Self::Item> {
        if self.ended {
            return None;
        }
        let step = walk_step(self.unit, self.at);
        self.at = step.next_at as usize;
        self.ended = step.number != 0 || step.end != 0;
        if let Err(refused) = Refused::check(step.number, step.place) {
            return Some(Err(refused));
        }
        if step.end != 0 {
            return None;
        }
        let start = step.start as usize;
        Some(Ok(&self.unit[start..start + step.length as usize]))
    }
}

impl std::iter::FusedIterator for Payloads<'_> {}
