//! The transport buffer's fill as a plot.

use super::level::transfer_rate;
use super::markup::{drawing, label, section as part};
use crate::buffer::arrivals::{Arrival, of_segment};
use crate::buffer::fill::{Fill, SIZE, UNIT, bytes, replay};
use crate::check::Report;
use crate::library;
use crate::reading::scan::unit_bytes;
use crate::reading::{seconds, sequence};
use crate::refusals;

const WIDTH: f64 = 940.0;
const HEIGHT: f64 = 230.0;
const LEFT: f64 = 60.0;
const RIGHT: f64 = 10.0;
const BASE: f64 = 204.0;
const TOP: f64 = 10.0;
const HEADING: &str = "The transport buffer";

pub fn section(report: &Report, rate: Option<u64>) -> String {
    let none = |words: &str| part("buffer", HEADING, words, "");
    let (rate, origin) = match rate
        .map(|rate| (rate, "as given"))
        .or_else(|| by_level(report))
    {
        Some(rate) => rate,
        None => return none("There is no rate to replay it at: --rate gives one."),
    };
    let arrivals = match of_segment(&report.piece.bytes) {
        Ok(arrivals) => arrivals,
        Err(failure) => return none(&format!("Not replayed: {}.", failure.0)),
    };
    let fill = replay(&arrivals, rate);
    let words = format!(
        "Drained at {rate} bits a second, {origin}. {}",
        result(&fill, &arrivals)
    );
    part("buffer", HEADING, &words, &plot(&fill, &arrivals))
}

/// The rate of the level in the first sequence header that the tool finds.
fn by_level(report: &Report) -> Option<(u64, &'static str)> {
    let starts = report.scan.starts.iter().take(64);
    let header = starts.into_iter().find_map(|start| {
        let obus = library::read_unit(&unit_bytes(&report.piece.bytes, *start)).ok()?;
        obus.iter().find_map(|bytes| sequence::of_obu(bytes))
    })?;
    let field = header.field;
    let rate = transfer_rate(field[0], field[1], field[2])?;
    Some((rate, "1.1 times the bit rate of the stream's level"))
}

fn result(fill: &Fill, arrivals: &[Arrival]) -> String {
    let highest = format!("Highest fill {} bytes of {SIZE}.", bytes(fill.highest));
    if let Some(refused) = fill.refused {
        let name = refusals::name(refused.number);
        let place = refused.place;
        return format!(
            "{highest} Refused {}: {name}, at arrival {place}.",
            refused.number
        );
    }
    match fill.above {
        None => format!("{highest} No overrun."),
        Some(index) => {
            let arrival = &arrivals[index];
            let packet = arrival.packet.unwrap_or(0);
            let time = seconds(arrival.time, UNIT);
            format!("{highest} First overrun at packet {packet}, {time} s.")
        }
    }
}

/// Times and places.
struct Scale {
    first: u64,
    last: u64,
    /// Bytes at the top.
    most: f64,
}

impl Scale {
    fn x(&self, ticks: f64) -> f64 {
        let span = (self.last - self.first).max(1) as f64;
        LEFT + (ticks - self.first as f64) / span * (WIDTH - LEFT - RIGHT)
    }

    fn y(&self, bytes: f64) -> f64 {
        BASE - bytes / self.most * (BASE - TOP)
    }
}

fn plot(fill: &Fill, arrivals: &[Arrival]) -> String {
    let (first, last) = match (arrivals.first(), fill.after.len().checked_sub(1)) {
        (Some(first), Some(last)) => (first.time, arrivals[last].time),
        _ => return String::new(),
    };
    let scale = Scale {
        first,
        last,
        most: (fill.highest as f64 / (8 * UNIT) as f64).max(SIZE as f64) * 1.05,
    };
    let content = if fill.after.len() <= 1_000 {
        teeth(fill, arrivals, &scale)
    } else {
        columns(fill, arrivals, &scale)
    };
    let axes = axes(&scale);
    drawing("fill", WIDTH as usize, HEIGHT as usize, &(content + &axes))
}

/// Each arrival, and how the buffer drains behind it.
fn teeth(fill: &Fill, arrivals: &[Arrival], scale: &Scale) -> String {
    let drained = fill.rate as f64 / (8 * UNIT) as f64;
    let (mut below, mut above) = (String::new(), String::new());
    for (index, after) in fill.after.iter().enumerate() {
        let height = *after as f64 / (8 * UNIT) as f64;
        let time = arrivals[index].time as f64;
        let empty = time + height / drained;
        let next = arrivals
            .get(index + 1)
            .filter(|_| index + 1 < fill.after.len());
        let end = next.map_or(time, |next| empty.min(next.time as f64));
        let rest = (height - (end - time) * drained).max(0.0);
        let shape = if height > SIZE as f64 {
            &mut above
        } else {
            &mut below
        };
        let (from, to) = (scale.x(time), scale.x(end).max(scale.x(time) + 1.0));
        let (high, low) = (scale.y(height), scale.y(rest));
        shape.push_str(&format!(
            "M{from:.1} {BASE}V{high:.1}L{to:.1} {low:.1}V{BASE}z"
        ));
    }
    shapes(&below, &above)
}

/// The highest fill in each column of the drawing.
fn columns(fill: &Fill, arrivals: &[Arrival], scale: &Scale) -> String {
    let mut columns = vec![0; WIDTH as usize + 1];
    for (arrival, after) in arrivals.iter().zip(&fill.after) {
        let column = &mut columns[scale.x(arrival.time as f64) as usize];
        *column = (*after).max(*column);
    }
    let (mut below, mut above) = (String::new(), String::new());
    for (x, after) in columns.iter().enumerate().filter(|(_, after)| **after > 0) {
        let height = *after as f64 / (8 * UNIT) as f64;
        let shape = if height > SIZE as f64 {
            &mut above
        } else {
            &mut below
        };
        shape.push_str(&format!("M{x} {BASE}V{:.1}h1V{BASE}z", scale.y(height)));
    }
    shapes(&below, &above)
}

fn shapes(below: &str, above: &str) -> String {
    format!("<path class=\"fill\" d=\"{below}\"/>\n<path class=\"over\" d=\"{above}\"/>\n")
}

fn axes(scale: &Scale) -> String {
    let (line, right) = (scale.y(SIZE as f64), WIDTH - RIGHT);
    let mut content = format!(
        "<line class=\"axis\" x1=\"{LEFT}\" y1=\"{BASE}\" x2=\"{right}\" y2=\"{BASE}\"/>\n\
         <line class=\"limit\" x1=\"{LEFT}\" y1=\"{line:.1}\" x2=\"{right}\" y2=\"{line:.1}\"/>\n"
    );
    content.push_str(&label(LEFT - 6.0, line + 4.0, "end", "512 bytes"));
    content.push_str(&label(LEFT - 6.0, BASE + 4.0, "end", "0"));
    for part in 0..=4u64 {
        let time = scale.first + (scale.last - scale.first) / 4 * part;
        let anchor = if part == 4 { "end" } else { "middle" };
        let words = format!("{:.3} s", time as f64 / UNIT as f64);
        content.push_str(&label(scale.x(time as f64), HEIGHT - 8.0, anchor, &words));
    }
    content
}
