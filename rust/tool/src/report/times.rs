//! The units over time: their sizes, PTS and DTS.

use super::markup::{drawing, escaped, label, section as part};
use crate::check::Report;
use crate::check::units::{UnitLine, lines, shown_time};
use crate::library::NO_TIME;
use crate::reading::obu::type_name;

const WIDTH: f64 = 940.0;
const HEIGHT: f64 = 220.0;
const LEFT: f64 = 60.0;
const RIGHT: f64 = 10.0;
const BOTTOM: f64 = 44.0;
const TOP: f64 = 14.0;

pub fn section(report: &Report) -> String {
    let heading = "Units over time";
    if report.refusal.is_some() {
        return part("units", heading, "A refused segment gives no units.", "");
    }
    let units = lines(&report.checked, &report.scan);
    let words = "A bar a unit at its DTS, as high as it has bytes, dark where it has a sequence \
                 header; the dot below is its PTS.";
    let content = legend() + &plot(&units) + &table(report, &units);
    part("units", heading, words, &content)
}

fn legend() -> String {
    "<ul class=\"legend\">\n<li><i class=\"bar\"></i>bytes at the DTS</li>\n\
     <li><i class=\"key\"></i>with a sequence header</li>\n\
     <li><i class=\"pts\"></i>PTS</li>\n</ul>\n"
        .to_string()
}

/// Times and places.
struct Scale {
    first: u64,
    span: f64,
    most: f64,
}

impl Scale {
    fn x(&self, ticks: u64) -> f64 {
        let passed = ticks as f64 - self.first as f64;
        LEFT + 4.0 + passed / self.span * (WIDTH - LEFT - RIGHT - 12.0)
    }

    fn y(&self, bytes: f64) -> f64 {
        HEIGHT - BOTTOM - bytes / self.most * (HEIGHT - BOTTOM - TOP)
    }
}

fn plot(units: &[UnitLine]) -> String {
    let timed: Vec<&UnitLine> = units.iter().filter(|unit| unit.pts != NO_TIME).collect();
    let all = || timed.iter().flat_map(|unit| [unit.pts, unit.dts]);
    let (first, last) = match (all().min(), all().max()) {
        (Some(first), Some(last)) => (first, last),
        _ => return String::new(),
    };
    let most = timed.iter().map(|unit| unit.bytes).max().unwrap_or(1);
    let scale = Scale {
        first,
        span: (last - first).max(1) as f64,
        most: most as f64,
    };
    let width = ((WIDTH - LEFT - RIGHT) / timed.len() as f64 * 0.6).clamp(1.0, 14.0);
    let mut content = axes(&scale, last);
    for unit in &timed {
        content.push_str(&bar(unit, &scale, width));
    }
    drawing("times", WIDTH as usize, HEIGHT as usize, &content)
}

fn bar(unit: &UnitLine, scale: &Scale, width: f64) -> String {
    let (x, y) = (scale.x(unit.dts), scale.y(unit.bytes as f64));
    let base = HEIGHT - BOTTOM;
    let class = if unit.obus.iter().any(|(kind, _)| *kind == 1) {
        "key"
    } else {
        "bar"
    };
    let (dot, below) = (scale.x(unit.pts), base + 10.0);
    let title = format!(
        "unit {}: {} bytes, PTS {}, DTS {}",
        unit.index,
        unit.bytes,
        shown_time(unit.pts),
        shown_time(unit.dts)
    );
    format!(
        "<g><title>{}</title><rect class=\"{class}\" x=\"{:.1}\" y=\"{y:.1}\" width=\"{width:.1}\" \
         height=\"{:.1}\"/><line class=\"delay\" x1=\"{x:.1}\" y1=\"{base}\" x2=\"{dot:.1}\" \
         y2=\"{below}\"/><circle class=\"pts\" cx=\"{dot:.1}\" cy=\"{below}\" r=\"2.5\"/></g>\n",
        escaped(&title),
        x - width / 2.0,
        base - y,
    )
}

fn axes(scale: &Scale, last: u64) -> String {
    let base = HEIGHT - BOTTOM;
    let mut text = format!(
        "<line class=\"axis\" x1=\"{LEFT}\" y1=\"{base}\" x2=\"{}\" y2=\"{base}\"/>\n",
        WIDTH - RIGHT
    );
    for share in [0.0, 0.5, 1.0] {
        let bytes = scale.most * share;
        text.push_str(&label(
            LEFT - 6.0,
            scale.y(bytes) + 4.0,
            "end",
            &format!("{bytes:.0}"),
        ));
    }
    for step in 0..=4u64 {
        let ticks = scale.first + (last - scale.first) * step / 4;
        let anchor = if step == 4 { "end" } else { "middle" };
        let seconds = format!("{:.3} s", ticks as f64 / 90_000.0);
        text.push_str(&label(scale.x(ticks), HEIGHT - 8.0, anchor, &seconds));
    }
    text
}

fn table(report: &Report, units: &[UnitLine]) -> String {
    let mut rows = String::new();
    for unit in units {
        let types: Vec<&str> = unit.obus.iter().map(|(kind, _)| type_name(*kind)).collect();
        let first = unit.first.map_or(String::new(), |first| {
            report.piece.packet(first as u64).to_string()
        });
        rows.push_str(&format!(
            "<tr><td>{}</td><td>{}</td><td>{}</td><td>{}</td><td>{}</td><td>{first}</td><td>{}</td></tr>\n",
            unit.index,
            unit.bytes,
            shown_time(unit.pts),
            shown_time(unit.dts),
            unit.dropped,
            types.join(", ")
        ));
    }
    format!(
        "<details><summary>{} units</summary>\n<table class=\"units\">\n<tr><th>unit</th>\
         <th>bytes</th><th>PTS</th><th>DTS</th><th>dropped</th><th>first packet</th>\
         <th>OBUs</th></tr>\n{rows}</table>\n</details>\n",
        units.len()
    )
}
