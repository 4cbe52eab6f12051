//! The order of an access unit's OBUs, by their kinds.
//!
//! "type 2 only as the first; then any of 0, 1, 5, 9 to 15; then either one 6 which is the last, or
//! one 3, then any of 4, 7, 15, ending in a 4." And of a type 3 OBU's flag: "where it is 1, that OBU
//! must be the last".

use crate::obu::Kind::{self, ShownAgain, Type};
use crate::refusal::Refusal;

/// The whole sentence as a condition on a list: there is a place where the head ends and the frame
/// begins.
pub fn legal(kinds: &[Kind]) -> bool {
    for place in 0..kinds.len() {
        let mut head = &kinds[..place];
        if let [Type(2), others @ ..] = head {
            head = others;
        }
        let frame_is_legal = match &kinds[place..] {
            [Type(6)] | [ShownAgain] => true,
            [Type(3), between @ .., Type(4)] => {
                between.iter().all(|kind| matches!(kind, Type(4 | 7 | 15)))
            }
            _ => false,
        };
        let head_is_legal = head
            .iter()
            .all(|kind| matches!(kind, Type(0 | 1 | 5 | 9..=15)));
        if head_is_legal && frame_is_legal {
            return true;
        }
    }
    false
}

/// Where a list stands after some of its OBUs.
#[derive(Clone, Copy, PartialEq, Eq)]
enum Stand {
    First,
    BeforeFrame,
    AfterFrame,
    AfterShownAgain,
    AfterFrameHeader,
    AfterTileGroup,
}

/// Tries 7. Its place: "index that breaks it; the OBU count if the list ends too soon".
pub fn check(kinds: &[Kind]) -> Result<(), Refusal> {
    let mut stand = Stand::First;
    for (index, &kind) in kinds.iter().enumerate() {
        let broken = |condition| Err(Refusal::new(7, index, condition));
        stand = match stand {
            Stand::First | Stand::BeforeFrame => match kind {
                Type(2) if stand == Stand::First => Stand::BeforeFrame,
                Type(2) => return broken("7: delimiter not the first"),
                Type(6) => Stand::AfterFrame,
                ShownAgain => Stand::AfterShownAgain,
                Type(3) => Stand::AfterFrameHeader,
                Type(0 | 1 | 5 | 9..=15) => Stand::BeforeFrame,
                Type(_) => return broken("7: 4 or 7 before a frame header"),
            },
            Stand::AfterFrame => return broken("7: after a frame"),
            Stand::AfterShownAgain => return broken("7: after a shown-again frame"),
            Stand::AfterFrameHeader | Stand::AfterTileGroup => match kind {
                Type(4) => Stand::AfterTileGroup,
                Type(7 | 15) => Stand::AfterFrameHeader,
                _ => return broken("7: wrong type after a frame header"),
            },
        };
    }
    match stand {
        Stand::AfterFrame | Stand::AfterShownAgain | Stand::AfterTileGroup => Ok(()),
        Stand::First | Stand::BeforeFrame => {
            Err(Refusal::new(7, kinds.len(), "7: ends before the frame"))
        }
        Stand::AfterFrameHeader => Err(Refusal::new(
            7,
            kinds.len(),
            "7: ends without a last tile group",
        )),
    }
}

/// The conditions of 7, as `check` names them.
pub const CONDITIONS: &[&str] = &[
    "7: delimiter not the first",
    "7: 4 or 7 before a frame header",
    "7: after a frame",
    "7: after a shown-again frame",
    "7: wrong type after a frame header",
    "7: ends before the frame",
    "7: ends without a last tile group",
];
