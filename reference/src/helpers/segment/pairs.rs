//! A segment with one fault, and with two.

use crate::helpers::segment::Caller;
use crate::helpers::segment::faults::{Base, Fault};
use crate::kit::Suite;
use reference::segment;

/// Checks a base with two faults put into it.
pub fn pair(suite: &mut Suite, caller: &mut Caller, base: &Base, first: &Fault, second: &Fault) {
    let mut base = base.clone();
    (first.apply)(&mut base);
    (second.apply)(&mut base);
    let bytes = base.bytes();
    let rooms = base.rooms_for(&bytes);
    let verdict = match segment::check(&bytes, rooms) {
        Ok(_) => None,
        Err(refusal) => Some((refusal.number, refusal.place as usize)),
    };
    let (one, other) = ((first.number, first.place), (second.number, second.place));
    let label = if one == other {
        "two of one rule".to_string()
    } else if verdict == Some(one) {
        pair_label(first, second)
    } else if verdict == Some(other) {
        pair_label(second, first)
    } else {
        "something else comes first".to_string()
    };
    caller.check(suite, &bytes, rooms, &[&label]);
}

/// Checks a base with one fault, which must be refused as meant.
pub fn single(suite: &mut Suite, caller: &mut Caller, base: &Base, fault: &Fault) {
    let mut base = base.clone();
    (fault.apply)(&mut base);
    let bytes = base.bytes();
    let rooms = base.rooms_for(&bytes);
    caller.check_as(suite, &bytes, rooms, &[], |verdict| {
        let meant = |refusal: &reference::refusal::Refusal| {
            refusal.condition == fault.condition
                && refusal.number == fault.number
                && refusal.place == fault.place as u64
        };
        let is_meant = verdict.as_ref().map_or_else(meant, |_| false);
        if !is_meant {
            println!(
                "  meant {} at {}, have {verdict:?}",
                fault.condition, fault.place
            );
        }
        is_meant
    });
}

/// A label for a pair of faults, where the verdict is that of the first.
fn pair_label(first: &Fault, second: &Fault) -> String {
    let (a, b) = (first.number, second.number);
    if a == 20 || b == 33 {
        format!("{a} before {b}")
    } else if first.moment == second.moment {
        format!("{a} before {b} at one packet")
    } else {
        format!("{a} before {b} at a later packet")
    }
}
