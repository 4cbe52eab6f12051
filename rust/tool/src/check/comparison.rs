//! 2026-04: the video descriptor beside the stream, in words. Which field differs, and in which
//! unit, is the library's answer; the stream's value is the tool's own reading.

use super::Report;
use crate::json::Json;
use crate::library;
use crate::reading::sequence::{self, FIELDS};

/// A header that disagrees with the descriptor.
struct Difference {
    unit: usize,
    /// Its name, the descriptor's value and the stream's; none where the header is cut short.
    field: Option<(&'static str, u64, Option<u64>)>,
}

fn difference(report: &Report) -> Option<Difference> {
    let segment = &report.checked.segment;
    if report.refusal.is_some() || segment.compared == 0 {
        return None;
    }
    let unit = segment.unit as usize;
    let index = segment.field as usize;
    let field = FIELDS.get(index).map(|name| {
        (
            *name,
            described(report, index),
            streamed(report, unit, index),
        )
    });
    Some(Difference { unit, field })
}

/// The descriptor's value of a field.
fn described(report: &Report, index: usize) -> u64 {
    let table = report.scan.pmt.as_ref();
    let entry = table.and_then(|table| table.read.av1(report.edition));
    let bytes = entry.and_then(|entry| entry.video().next());
    let fields = bytes.and_then(|bytes| library::read_descriptor(bytes).ok());
    fields.map_or(0, |fields| fields.field[index])
}

/// The value in the first sequence header of a unit that has another than the descriptor.
fn streamed(report: &Report, unit: usize, index: usize) -> Option<u64> {
    let carried = report.checked.units().get(unit)?.bytes;
    let due = described(report, index);
    let obus = library::read_unit(carried).ok()?;
    let headers = obus.iter().filter_map(|obu| sequence::of_obu(obu));
    headers
        .map(|header| header.field[index])
        .find(|value| *value != due)
}

pub fn text(report: &Report) -> String {
    match difference(report) {
        None => String::new(),
        Some(Difference { unit, field: None }) => {
            format!("  descriptor: the sequence header of unit {unit} is cut short (43)\n")
        }
        Some(Difference {
            unit,
            field: Some((name, described, streamed)),
        }) => {
            let value = streamed.map_or("another value".to_string(), |value| value.to_string());
            format!("  descriptor: {name} is {described}, the stream has {value} in unit {unit}\n")
        }
    }
}

pub fn json(report: &Report) -> Json {
    let found = match difference(report) {
        None => return Json::Null,
        Some(found) => found,
    };
    let field = found.field;
    Json::Object(vec![
        ("unit", found.unit.into()),
        (
            "number",
            if field.is_none() {
                Json::Number(43)
            } else {
                Json::Null
            },
        ),
        (
            "field",
            Json::option(field.map(|(name, _, _)| Json::text(name))),
        ),
        (
            "descriptor",
            Json::option(field.map(|(_, value, _)| value.into())),
        ),
        (
            "stream",
            Json::option(field.and_then(|(_, _, value)| value).map(Json::Number)),
        ),
    ])
}
