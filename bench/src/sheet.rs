//! Writing the sheet of a segment, beside the check of the segment, which it does too.

use crate::access_unit::Sizes;
use crate::input::{Clip, Kind};
use crate::measure::{Case, Outputs, Peer, Plan, Row, touched};
use crate::multiplex::{Multiplex, long_units_with};
use crate::segment;
use av1ts::sheet::{SheetWritten, write_sheet};
use reference::segment::Rooms;

/// The current edition, which `check_segment` goes by.
const EDITION: u64 = 0;

const ROOM: usize = av1ts::Sheet::MOST_BYTES;

const FUNCTION: &str = "write_sheet";

/// The segments of the check, and one whose OBUs say no size, so that each payload is searched.
pub fn measure(plan: &Plan, clip: &Clip) -> Result<Vec<Row>, String> {
    let mut rows = segment::each(plan, clip, FUNCTION, row)?;
    let segment = long_units_with(Sizes::Absent, Kind::RealAv1, plan.part, clip);
    let names = [FUNCTION, "real AV1, no sizes", plan.segment_size];
    rows.push(row(&Case::of_segment(plan, names, &segment))?);
    Ok(rows)
}

fn row(case: &Case<Multiplex>) -> Result<Row, String> {
    for multiplex in case.inputs {
        same(case, multiplex)?;
    }
    let peers = vec![(Peer::Check, case.run(&segment::check))];
    let mut out = with_sheet(segment::room(case.amount));
    Ok(case.row(&mut out, case.run(&write), peers))
}

/// The outputs of the check, and room for a sheet.
fn with_sheet(checked: Outputs) -> Outputs {
    Outputs {
        sheet: touched(ROOM),
        ..checked
    }
}

/// Checks that the library writes the sheet that the second program writes.
fn same(case: &Case<Multiplex>, multiplex: &Multiplex) -> Result<(), String> {
    let mut out = with_sheet(segment::room(case.amount));
    let rooms = Rooms {
        bytes: out.bytes.len(),
        lengths: out.lengths.len(),
        times: out.times.len(),
    };
    let sheet = reference::sheet::write(EDITION, &multiplex.segment, rooms, ROOM).sheet;
    let sheet = sheet.map_err(|refusal| format!("the second program says {refusal:?}"))?;
    let answer = write(multiplex, &mut out);
    let written = SheetWritten {
        count: sheet.len() as u64,
        ..SheetWritten::default()
    };
    let mut expected = with_sheet(segment::expected(multiplex));
    expected.sheet[..sheet.len()].copy_from_slice(&sheet);
    if answer != written || out != expected {
        return Err(case.difference(&answer, &written));
    }
    Ok(())
}

fn write(multiplex: &Multiplex, out: &mut Outputs) -> SheetWritten {
    let (bytes, lengths, times) = (&mut out.bytes, &mut out.lengths, &mut out.times);
    write_sheet(
        EDITION,
        &multiplex.segment,
        bytes,
        lengths,
        times,
        &mut out.sheet,
    )
}
