//! A report as one JSON object. JSON.md says what each key means.

use super::{Report, Shown};
use crate::json::Json;
use crate::library::Edition;
use crate::reading::finding::Finding;
use crate::refusals;

pub fn json(report: &Report) -> Json {
    let segment = &report.checked.segment;
    let accepted = report.refusal.is_none();
    let given = |value: Json| if accepted { value } else { Json::Null };
    let piece = &report.piece;
    Json::Object(vec![
        ("file", Json::text(&report.name)),
        ("bytes", Json::option(piece.whole.map(Json::Number))),
        ("packets", piece.origin.len().into()),
        ("first_packet", piece.packet(0).into()),
        ("left_out", Json::list(&piece.left_out, Json::text)),
        ("edition", Json::text(edition_name(report.edition))),
        (
            "verdict",
            Json::text(if accepted { "accepted" } else { "refused" }),
        ),
        (
            "refusal",
            Json::option(report.refusal.as_ref().map(|shown| refusal(report, shown))),
        ),
        ("program", given(segment.program.into())),
        ("pid", given(segment.pid.into())),
        ("totals", given(totals(report))),
        ("unit_count", given(segment.units.into())),
        ("unit_bytes", given(report.unit_bytes().into())),
        ("comparison", super::comparison::json(report)),
        (
            "units",
            Json::option(
                report
                    .units
                    .as_ref()
                    .filter(|_| accepted)
                    .map(|_| units(report)),
            ),
        ),
    ])
}

pub fn edition_name(edition: Edition) -> &'static str {
    match edition {
        Edition::Current => "current",
        Edition::Draft => "draft",
    }
}

fn refusal(report: &Report, shown: &Shown) -> Json {
    let refused = shown.refused;
    let rule = refusals::of(refused.number).map(|entry| Json::text(entry.rule));
    Json::Object(vec![
        ("number", refused.number.into()),
        ("name", Json::text(refusals::name(refused.number))),
        ("place", refused.place.into()),
        ("packet", report.piece.packet(refused.place).into()),
        ("byte", report.piece.byte(refused.place).into()),
        ("rule", Json::option(rule)),
        ("found", Json::list(&shown.found, Finding::json)),
        ("hints", Json::list(&shown.hints, Json::text)),
    ])
}

fn totals(report: &Report) -> Json {
    let segment = &report.checked.segment;
    Json::Object(vec![
        ("null", segment.null_packets.into()),
        ("section", segment.section.into()),
        ("av1", segment.av1.into()),
        ("other_listed", segment.other_listed.into()),
        ("unlisted", segment.unlisted.into()),
    ])
}

fn units(report: &Report) -> Json {
    Json::list(report.units.iter().flatten(), |unit| {
        unit.json(unit.first.map(|first| report.piece.packet(first as u64)))
    })
}
