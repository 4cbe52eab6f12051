//! Reading, checking and writing one access unit.

use crate::access_unit::{ObuList, Units};
use crate::input::{Clip, Kind, MAX_OBUS, Size};
use crate::measure::{Case, Outputs, Peer, Plan, Row, asking};
use crate::peers::{lavc, plain, sse2};
use av1ts::Answer;
use av1ts::unit::{check_unit, read_unit, write_unit};

/// Room for any unit of a size, and its OBUs' lengths.
fn room(size: Size) -> Outputs {
    Outputs::touched(size.0 / 2 * 3 + 3 * MAX_OBUS, MAX_OBUS)
}

pub fn measure(plan: &Plan, clip: &Clip, rows: &mut Vec<Row>) -> Result<(), String> {
    for row in [read_row, check_row, write_row] {
        for &size in plan.sizes {
            for kind in Kind::ALL {
                let units = Units::new(plan.inputs(size.0), kind, size.0, clip);
                rows.push(row(plan, size, &units)?);
            }
        }
    }
    Ok(())
}

/// The rows of sizes doubled, for each function.
pub fn growth(plan: &Plan, sizes: &[Size], clip: &Clip) -> Result<Vec<Vec<Row>>, String> {
    let of = |row: fn(&Plan, Size, &Units) -> Result<Row, String>| {
        let rows = sizes.iter().map(|&size| {
            let units = Units::new(plan.inputs(size.0), Kind::RealAv1, size.0, clip);
            row(plan, size, &units)
        });
        rows.collect()
    };
    [read_row, check_row, write_row]
        .into_iter()
        .map(of)
        .collect()
}

fn read_row(plan: &Plan, size: Size, units: &Units) -> Result<Row, String> {
    let names = ["read_unit", units.kind.name(), size.1];
    Case::new(plan, names, &units.carried).compare(
        &mut room(size),
        &reading(read_unit),
        &[
            (Peer::PlainC, &reading(plain::read_unit)),
            (Peer::Lavc, &reading(lavc::read_unit)),
            (Peer::Sse2, &reading(sse2::read_unit)),
        ],
    )
}

fn check_row(plan: &Plan, size: Size, units: &Units) -> Result<Row, String> {
    let names = ["check_unit", units.kind.name(), size.1];
    Case::new(plan, names, &units.carried).compare(
        &mut room(size),
        &asking(check_unit),
        &[
            (Peer::PlainC, &asking(plain::check_unit)),
            (Peer::Lavc, &asking(lavc::check_unit)),
            (Peer::Sse2, &asking(sse2::check_unit)),
        ],
    )
}

fn write_row(plan: &Plan, size: Size, units: &Units) -> Result<Row, String> {
    let names = ["write_unit", units.kind.name(), size.1];
    Case::new(plan, names, &units.lists).compare(
        &mut room(size),
        &writing(write_unit),
        &[
            (Peer::PlainC, &writing(plain::write_unit)),
            (Peer::Sse2, &writing(sse2::write_unit)),
        ],
    )
}

fn reading(
    f: impl Fn(&[u8], &mut [u8], &mut [usize]) -> Answer,
) -> impl Fn(&Vec<u8>, &mut Outputs) -> Answer {
    move |unit, out| f(unit, &mut out.bytes, &mut out.lengths)
}

fn writing(
    f: impl Fn(&[u8], &[usize], &mut [u8]) -> Answer,
) -> impl Fn(&ObuList, &mut Outputs) -> Answer {
    move |list, out| f(&list.bytes, &list.lengths, &mut out.bytes)
}
