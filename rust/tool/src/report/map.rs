//! The packets as a coloured map by class.

use super::markup::{drawing, label, section as part};
use crate::check::Report;
use crate::reading::scan::Class;

/// What a packet is drawn as.
const KINDS: [(&str, &str); 6] = [
    ("start", "AV1, begins a PES"),
    ("av1", "AV1"),
    ("section", "section"),
    ("listed", "other listed"),
    ("unlisted", "unlisted"),
    ("null", "null"),
];

/// How the packets are laid out.
struct Layout {
    columns: usize,
    cell: usize,
}

/// Room for the number of a row's first packet.
const MARGIN: usize = 60;
const WIDTH: usize = 940;

impl Layout {
    fn of(packets: usize) -> Layout {
        let columns = match packets {
            0..=1024 => 64,
            1025..=8192 => 128,
            _ => 256,
        };
        Layout {
            columns,
            cell: (WIDTH - MARGIN) / columns,
        }
    }

    fn place(&self, index: usize) -> (usize, usize) {
        (
            MARGIN + index % self.columns * self.cell,
            4 + index / self.columns * self.cell,
        )
    }

    fn rows(&self, packets: usize) -> usize {
        (packets + self.columns - 1) / self.columns
    }
}

/// The kind of each packet that the tool has read.
fn kinds(report: &Report) -> Vec<&'static str> {
    let classes = report.scan.classes.iter();
    let mut kinds: Vec<&'static str> = classes
        .map(|class| match class {
            Class::Null => "null",
            Class::Section => "section",
            Class::Av1 => "av1",
            Class::Listed => "listed",
            Class::Unlisted => "unlisted",
        })
        .collect();
    for start in &report.scan.starts {
        kinds[*start] = "start";
    }
    kinds
}

pub fn section(report: &Report) -> String {
    let kinds = kinds(report);
    let layout = Layout::of(kinds.len());
    let mut content = String::new();
    for (kind, _) in KINDS {
        content.push_str(&runs(&kinds, kind, &layout));
    }
    let every = (layout.rows(kinds.len()) / 24).max(1);
    for row in (0..layout.rows(kinds.len())).step_by(every) {
        let (_, y) = layout.place(row * layout.columns);
        let number = report.piece.packet((row * layout.columns) as u64);
        let baseline = (y + layout.cell.max(9)) as f64;
        content.push_str(&label(
            MARGIN as f64 - 6.0,
            baseline,
            "end",
            &number.to_string(),
        ));
    }
    content.push_str(&mark(report, &layout));
    let height = 8 + layout.rows(kinds.len()) * layout.cell.max(1) + layout.cell;
    let words = "One cell a packet, in order; at the left the first packet of a row.";
    part(
        "map",
        "Packets",
        words,
        &(legend(report, &kinds) + &drawing("packets", WIDTH, height, &content)),
    )
}

/// The cells of a kind as one shape; where they are small, with a part a run.
fn runs(kinds: &[&str], kind: &str, layout: &Layout) -> String {
    let mut shape = String::new();
    let mut index = 0;
    while index < kinds.len() {
        if kinds[index] != kind {
            index += 1;
            continue;
        }
        let left = layout.columns - index % layout.columns;
        let run = if layout.cell > 4 {
            1
        } else {
            let row = kinds[index..].iter().take(left);
            row.take_while(|other| **other == kind).count()
        };
        let (x, y) = layout.place(index);
        let gap = usize::from(layout.cell > 4);
        let (wide, high) = (run * layout.cell - gap, layout.cell - gap);
        shape.push_str(&format!("M{x} {y}h{wide}v{high}h-{wide}z"));
        index += run;
    }
    let count = kinds.iter().filter(|other| **other == kind).count();
    format!("<path class=\"{kind}\" data-count=\"{count}\" d=\"{shape}\"/>\n")
}

/// The packet at which the segment is refused.
fn mark(report: &Report, layout: &Layout) -> String {
    let place = match &report.refusal {
        Some(shown) if shown.refused.number != 20 => shown.refused.place as usize,
        _ => return String::new(),
    };
    let (x, y) = layout.place(place);
    let (x, y, size) = (x as isize - 3, y as isize - 3, layout.cell + 6);
    format!(
        "<rect class=\"refused\" x=\"{x}\" y=\"{y}\" width=\"{size}\" height=\"{size}\" rx=\"2\"/>\n"
    )
}

fn legend(report: &Report, kinds: &[&str]) -> String {
    let mut items = String::new();
    for (kind, name) in KINDS {
        let count = kinds.iter().filter(|other| **other == kind).count();
        items.push_str(&format!(
            "<li><i class=\"{kind}\"></i>{name}: {count}</li>\n"
        ));
    }
    if report.refusal.is_some() {
        items.push_str("<li><i class=\"refused\"></i>refused here</li>\n");
    }
    format!("<ul class=\"legend\">\n{items}</ul>\n")
}
