//! A report as text.

use super::units::shown_time;
use super::{Report, Shown};
use crate::library::{Edition, NO_TIME};
use crate::reading::finding::lines;
use crate::reading::pid;
use crate::refusals;

/// The lines of a report, the verdict first.
pub fn text(report: &Report) -> String {
    let mut text = verdict(report);
    for words in &report.piece.left_out {
        text.push_str(&format!("  left out: {words}\n"));
    }
    match &report.refusal {
        Some(shown) => text.push_str(&refused(shown)),
        None => text.push_str(&accepted(report)),
    }
    text
}

/// The verdict in a line.
pub fn verdict(report: &Report) -> String {
    let edition = match report.edition {
        Edition::Current => "",
        Edition::Draft => " (draft)",
    };
    match &report.refusal {
        None => format!("{}: accepted{edition}\n", report.name),
        Some(shown) => {
            let refused = shown.refused;
            format!(
                "{}: refused {}{edition}: {}, at packet {}, byte {}\n",
                report.name,
                refused.number,
                refusals::name(refused.number),
                report.piece.packet(refused.place),
                report.piece.byte(refused.place),
            )
        }
    }
}

fn refused(shown: &Shown) -> String {
    let mut text = String::new();
    if let Some(entry) = refusals::of(shown.refused.number) {
        text.push_str(&wrapped("rule: ", entry.rule));
        if entry.number == 24 {
            text.push_str(&wrapped("      ", refusals::REPEATS));
        }
    }
    if !shown.found.is_empty() {
        text.push_str("  found there, by the tool's own reading:\n");
        text.push_str(&lines(&shown.found, "    "));
    }
    for hint in &shown.hints {
        text.push_str(&wrapped("hint: ", hint));
    }
    text
}

/// Words in lines of at most 100 columns behind a head.
pub fn wrapped(head: &str, words: &str) -> String {
    let indent = " ".repeat(2 + head.len());
    let mut text = format!("  {head}");
    let mut column = text.len();
    for (index, word) in words.split(' ').enumerate() {
        if index > 0 && column + 1 + word.chars().count() > 100 {
            text.push_str(&format!("\n{indent}"));
            column = indent.len();
        } else if index > 0 {
            text.push(' ');
            column += 1;
        }
        text.push_str(word);
        column += word.chars().count();
    }
    text + "\n"
}

fn accepted(report: &Report) -> String {
    let segment = &report.checked.segment;
    let mut text = format!(
        "  program {}, AV1 PID {}\n  {} packets: {} null, {} section, {} AV1, {} other listed, {} unlisted\n",
        segment.program,
        pid(segment.pid as u16),
        report.piece.origin.len(),
        segment.null_packets,
        segment.section,
        segment.av1,
        segment.other_listed,
        segment.unlisted,
    );
    text.push_str(&format!(
        "  {} units, {} bytes\n",
        segment.units,
        report.unit_bytes()
    ));
    text.push_str(&times(report));
    text.push_str(&super::comparison::text(report));
    for unit in report.units.iter().flatten() {
        let packet = unit.first.map(|first| report.piece.packet(first as u64));
        text.push_str(&format!("  {}\n", unit.text(packet)));
    }
    text
}

/// The least and the greatest of each kind of time.
fn times(report: &Report) -> String {
    let units = report.checked.units();
    let line = |name: &str, times: Vec<u64>| match (times.iter().min(), times.iter().max()) {
        (Some(least), Some(most)) => {
            format!("  {name} {} to {}\n", shown_time(*least), shown_time(*most))
        }
        _ => String::new(),
    };
    let timed = || units.iter().filter(|unit| unit.pts != NO_TIME);
    line("PTS", timed().map(|unit| unit.pts).collect())
        + &line("DTS", timed().map(|unit| unit.dts).collect())
}
