//! A report as one HTML page, which needs nothing from elsewhere.

mod fill;
mod level;
mod map;
mod markup;
mod tables;
mod times;

use crate::check::{Report, Shown, json};
use crate::reading::pid;
use crate::refusals;
use markup::{definitions, escaped, findings, list, section};

const STYLE: &str = include_str!("report/style.css");

/// The page. `rate` is the rate that the buffer drains at, where it is given.
pub fn page(report: &Report, rate: Option<u64>) -> String {
    let body = [
        verdict(report),
        map::section(report),
        times::section(report),
        fill::section(report, rate),
        tables::section(report),
    ];
    format!(
        "<!DOCTYPE html>\n<html lang=\"en\">\n<head>\n<meta charset=\"utf-8\">\n\
         <meta name=\"viewport\" content=\"width=device-width\">\n<title>{}</title>\n\
         <style>\n{STYLE}</style>\n</head>\n<body{}>\n<h1>{}</h1>\n{}\
         <footer>av1ts {}. The verdict, program, PID, totals, units and times, and the buffer's \
         fill, are the proved library's. The map, the tables, first packets and arrival times are \
         the tool's own reading.</footer>\n</body>\n</html>\n",
        escaped(&report.name),
        facts(report),
        escaped(&report.name),
        body.concat(),
        env!("CARGO_PKG_VERSION"),
    )
}

/// What the page says, as attributes that a program can read.
fn facts(report: &Report) -> String {
    match &report.refusal {
        None => format!(
            " data-verdict=\"accepted\" data-units=\"{}\" data-packets=\"{}\"",
            report.checked.segment.units,
            report.piece.origin.len()
        ),
        Some(shown) => format!(
            " data-verdict=\"refused\" data-number=\"{}\" data-place=\"{}\" data-packets=\"{}\"",
            shown.refused.number,
            shown.refused.place,
            report.piece.origin.len()
        ),
    }
}

fn verdict(report: &Report) -> String {
    let left_out = if report.piece.left_out.is_empty() {
        String::new()
    } else {
        format!("<p>Left out:</p>\n{}", list(&report.piece.left_out))
    };
    match &report.refusal {
        None => accepted(report) + &left_out,
        Some(shown) => refused(report, shown) + &left_out,
    }
}

fn accepted(report: &Report) -> String {
    let segment = &report.checked.segment;
    let rows = [
        ("Edition", json::edition_name(report.edition).to_string()),
        ("Program", segment.program.to_string()),
        ("AV1 PID", pid(segment.pid as u16)),
        ("Packets", report.piece.origin.len().to_string()),
        (
            "Units",
            format!("{}, {} bytes", segment.units, report.unit_bytes()),
        ),
    ];
    let compared = crate::check::comparison::text(report);
    let note = if compared.is_empty() {
        String::new()
    } else {
        format!("<p class=\"hint\">{}</p>\n", escaped(compared.trim()))
    };
    format!(
        "<p class=\"verdict accepted\">accepted</p>\n{}{note}",
        definitions(&rows)
    )
}

fn refused(report: &Report, shown: &Shown) -> String {
    let refused = shown.refused;
    let mut text = format!(
        "<p class=\"verdict refused\">refused {}: {}, at packet {}, byte {}</p>\n",
        refused.number,
        refusals::name(refused.number),
        report.piece.packet(refused.place),
        report.piece.byte(refused.place),
    );
    if let Some(entry) = refusals::of(refused.number) {
        text.push_str(&format!("<p>{}</p>\n", escaped(entry.rule)));
    }
    for hint in &shown.hints {
        text.push_str(&format!("<p class=\"hint\">{}</p>\n", escaped(hint)));
    }
    if !shown.found.is_empty() {
        text.push_str(&section(
            "found",
            "What stands there",
            "",
            &findings(&shown.found),
        ));
    }
    text
}
