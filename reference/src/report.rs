//! The verdict on a segment, as text.

use crate::refusal::Refusal;
use crate::segment::Accepted;
use std::fmt::Write;

/// `refused`, number, place, and in brackets the condition; or what acceptance gives, and a line for
/// each unit: index, length, PTS, DTS.
pub fn report(verdict: &Result<Accepted, Refusal>) -> String {
    let accepted = match verdict {
        Err(refusal) => {
            return format!(
                "refused {} {} ({})\n",
                refusal.number, refusal.place, refusal.condition
            );
        }
        Ok(accepted) => accepted,
    };
    let totals = &accepted.totals;
    let mut text = format!(
        "program {} pid {} units {}\n\
         null {} section {} av1 {} other listed {} unlisted {}\n",
        accepted.program,
        accepted.pid,
        accepted.units.len(),
        totals.null,
        totals.section,
        totals.av1,
        totals.other_listed,
        totals.unlisted
    );
    for (index, unit) in accepted.units.iter().enumerate() {
        let (length, pts, dts) = (unit.bytes.len(), unit.pts, unit.dts);
        writeln!(text, "{index} length {length} pts {pts} dts {dts}")
            .expect("a string takes any text");
    }
    text
}
