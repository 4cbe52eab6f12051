//! The times of units.

use super::source::Unit;
use crate::library;
use crate::reading::obu;

/// A unit with its times.
pub struct Timed {
    pub bytes: Vec<u8>,
    pub pts: u64,
    pub dts: u64,
    /// Whether it is a random access point: a key frame with its sequence header.
    pub marked: bool,
}

/// What of a unit the times go by.
struct Kind {
    delimited: bool,
    shown: bool,
    marked: bool,
}

fn kind(bytes: &[u8]) -> Kind {
    let obus = library::read_unit(bytes).unwrap_or_default();
    let is = |kind: u8| obus.iter().any(|bytes| obu::read(bytes).kind == kind);
    Kind {
        delimited: is(2),
        shown: obus
            .iter()
            .any(|bytes| obu::read(bytes).shows(bytes) == Some(true)),
        marked: is(1) && obus.iter().any(|bytes| obu::read(bytes).key(bytes)),
    }
}

/// The temporal unit that each unit belongs to.
fn groups(units: &[Unit], kinds: &[Kind]) -> Vec<usize> {
    let divided = kinds.iter().any(|kind| kind.delimited);
    let mut group = 0;
    let mut groups = Vec::new();
    for (index, (unit, kind)) in units.iter().zip(kinds).enumerate() {
        let begins = match unit.first {
            Some(first) => first,
            None if divided => kind.delimited,
            None => index > 0 && kinds[index - 1].shown,
        };
        if begins && index > 0 {
            group += 1;
        }
        groups.push(group);
    }
    groups
}

/// Each unit with a PTS and a DTS. The units of a temporal unit are decoded one after the other
/// within the frame before it; one that is not shown has its DTS as PTS.
pub fn timed(units: &[Unit], first: u64, (over, under): (u64, u64)) -> Vec<Timed> {
    let kinds: Vec<Kind> = units.iter().map(|unit| kind(&unit.bytes)).collect();
    let groups = groups(units, &kinds);
    let step = 90_000 * under / over;
    let mut timed = Vec::new();
    for (index, (unit, kind)) in units.iter().zip(&kinds).enumerate() {
        let group = groups[index];
        let behind = groups[index + 1..]
            .iter()
            .take_while(|other| **other == group)
            .count() as u64;
        let before = groups[..index]
            .iter()
            .rev()
            .take_while(|other| **other == group)
            .count() as u64;
        let ticks = (u128::from(under) * 90_000 * group as u128 / u128::from(over)) as u64;
        let time = first.saturating_add(unit.time.unwrap_or(ticks));
        let dts = time.saturating_sub(step * behind / (before + behind + 1));
        timed.push(Timed {
            bytes: unit.bytes.clone(),
            pts: if kind.shown { time } else { dts },
            dts,
            marked: kind.marked,
        });
    }
    timed
}
