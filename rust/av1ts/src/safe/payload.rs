//! One OBU and its payload.

use super::{MOST_OBU_BYTES, MOST_PAYLOAD_BYTES, Refused};
use crate::payload;

/// An OBU that was unescaped, and how many bytes were dropped.
#[derive(Clone, Debug, PartialEq, Eq)]
pub struct Unescaped {
    pub obu: Vec<u8>,
    pub dropped: usize,
}

/// The escaped form of an OBU: the payload that a transport stream carries.
///
/// ```
/// assert_eq!(av1ts::escape(&[0, 0, 1])?, [0, 0, 3, 1]);
/// # Ok::<(), av1ts::Refused>(())
/// ```
pub fn escape(obu: &[u8]) -> Result<Vec<u8>, Refused> {
    let len = obu.len().min(MOST_OBU_BYTES);
    let mut out = vec![0; len + len / 2];
    let answer = payload::escape(obu, &mut out);
    Refused::check(answer.number, answer.place)?;
    out.truncate(answer.count as usize);
    Ok(out)
}

/// The OBU of a payload.
///
/// ```
/// let unescaped = av1ts::unescape(&[0, 0, 3, 1])?;
/// assert_eq!(unescaped.obu, [0, 0, 1]);
/// assert_eq!(unescaped.dropped, 1);
/// # Ok::<(), av1ts::Refused>(())
/// ```
pub fn unescape(payload: &[u8]) -> Result<Unescaped, Refused> {
    let mut obu = vec![0; payload.len().min(MOST_PAYLOAD_BYTES)];
    let answer = payload::unescape(payload, &mut obu);
    Refused::check(answer.number, answer.place)?;
    obu.truncate(answer.count as usize);
    Ok(Unescaped {
        obu,
        dropped: answer.dropped as usize,
    })
}
