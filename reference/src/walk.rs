//! Stepping through one access unit.
//!
//! "a walk over an access unit hands out one payload at a time, as a part of the lent bytes, and at
//! the end says so. It checks 9 at the start and 3 and 10 at each step, and stays at a step that
//! refused." It has no 1 and no 2.

use crate::payload;
use crate::refusal::Refusal;
use crate::unit::{START_CODE, payloads};
use std::ops::Range;

/// The condition of 9 at a step.
const NO_START_CODE: &str = "9: no start code at the place";

/// The start of a walk: the place of its first step.
pub fn start(unit: &[u8]) -> Result<usize, Refusal> {
    if !unit.starts_with(&START_CODE) {
        return Err(Refusal::new(9, 0, "9: no start code at the head"));
    }
    Ok(0)
}

/// What a step comes to.
#[derive(Clone, Debug, PartialEq, Eq)]
pub enum Step {
    /// A payload as a part of the unit, and the place of the next step.
    Payload { part: Range<usize>, next: usize },
    /// The end; the walk stays there.
    End,
    /// A refusal; the walk stays where it is.
    Refused(Refusal),
}

/// The step at a place. The places of a walk are 0, those of the start codes, and the unit's length.
///
/// A place that no walk reaches is answered too: from the unit's length on by the end, elsewhere by
/// 9. At place 0 it is 9 wherever no start code stands, in a unit of no bytes too.
pub fn step(unit: &[u8], at: usize) -> Step {
    let parts = payloads(unit);
    let here = |part: &Range<usize>| part.start - START_CODE.len() == at;
    let index = match parts.iter().position(here) {
        Some(index) => index,
        _ => {
            if at > 0 && at >= unit.len() {
                return Step::End;
            }
            return Step::Refused(Refusal::new(9, 0, NO_START_CODE));
        }
    };
    let part = parts[index].clone();
    let payload = &unit[part.clone()];
    if payload.is_empty() {
        return Step::Refused(Refusal::new(3, index, "3: no bytes"));
    }
    if let Some((_, condition)) = payload::first_forbidden(payload) {
        return Step::Refused(Refusal::new(10, index, condition));
    }
    let next = part.end;
    Step::Payload { part, next }
}
