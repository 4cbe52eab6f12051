//! The fill of the buffer, arrival by arrival.

use super::arrivals::Arrival;
use crate::json::Json;
use crate::library::{Refused, ReplayState, run_replay};
use crate::reading::seconds;
use crate::refusals;
use crate::screen::Progress;

/// Fill is counted in bits times this.
pub const UNIT: u64 = 27_000_000;
/// The buffer's bytes.
pub const SIZE: u64 = 512;
/// A full buffer.
const FULL: u64 = SIZE * 8 * UNIT;

pub struct Fill {
    pub rate: u64,
    /// The fill behind each arrival, in bits times 27,000,000.
    pub after: Vec<u64>,
    pub highest: u64,
    /// The first arrival that overran the buffer.
    pub above: Option<usize>,
    pub refused: Option<Refused>,
}

/// Replays arrivals one by one: a run in parts ends as a run in one does.
pub fn replay(arrivals: &[Arrival], rate: u64) -> Fill {
    let mut state = ReplayState::default();
    let mut after = Vec::with_capacity(arrivals.len());
    let mut refused = None;
    let mut progress = Progress::new("arrival", arrivals.len());
    for (index, arrival) in arrivals.iter().enumerate() {
        progress.at(index);
        let run = run_replay(state, rate, &[arrival.time], &[arrival.bytes]);
        if run.number != 0 {
            refused = Some(Refused {
                number: run.number,
                place: index as u64,
            });
            break;
        }
        state = run.state;
        after.push(state.fill);
    }
    Fill {
        rate,
        after,
        highest: state.highest,
        above: if state.has_above == 1 {
            Some(state.above as usize)
        } else {
            None
        },
        refused,
    }
}

/// A fill in bytes, with two digits behind the point.
pub fn bytes(fill: u64) -> String {
    let hundredths = u128::from(fill) * 100 / (8 * u128::from(UNIT));
    format!("{}.{:02}", hundredths / 100, hundredths % 100)
}

/// A bar of at most 48 signs, of which | is where the buffer is full.
fn bar(fill: u64, most: u64) -> String {
    let signs = |fill: u64| (u128::from(fill) * 48 / u128::from(most)) as usize;
    let sign = |at: usize| match at {
        at if at == signs(FULL) => '|',
        at if at < signs(fill) => '#',
        _ => ' ',
    };
    let bar: String = (0..49).map(sign).collect();
    bar.trim_end().to_string()
}

fn place(arrival: &Arrival) -> String {
    let packet = arrival
        .packet
        .map_or(String::new(), |packet| format!(", packet {packet}"));
    format!(
        "at {} ({} s){packet}",
        arrival.time,
        seconds(arrival.time, UNIT)
    )
}

impl Fill {
    pub fn text(&self, name: &str, arrivals: &[Arrival], all: bool) -> String {
        let mut text = format!(
            "{name}: {} arrivals at {} bits a second\n",
            arrivals.len(),
            self.rate
        );
        if let Some(refused) = self.refused {
            let words = refusals::name(refused.number);
            text.push_str(&format!(
                "  refused {}: {words}, at arrival {}",
                refused.number, refused.place
            ));
            let arrival = arrivals.get(refused.place as usize);
            text.push_str(
                &arrival.map_or(String::new(), |arrival| format!(", {}", place(arrival))),
            );
            text.push('\n');
        }
        text.push_str(&format!(
            "  highest fill {} bytes of {SIZE}\n",
            bytes(self.highest)
        ));
        match self.above {
            None => text.push_str("  no overrun\n"),
            Some(index) => text.push_str(&format!(
                "  first overrun: arrival {index}, {}, {} bytes\n",
                place(&arrivals[index]),
                bytes(self.after[index])
            )),
        }
        text + &if all {
            self.lines(arrivals)
        } else {
            self.plot(arrivals)
        }
    }

    fn lines(&self, arrivals: &[Arrival]) -> String {
        let lines = arrivals
            .iter()
            .zip(&self.after)
            .enumerate()
            .map(|(index, (arrival, fill))| {
                format!(
                    "  arrival {index} {} fill {}\n",
                    place(arrival),
                    bytes(*fill)
                )
            });
        lines.collect()
    }

    /// The highest fill in each of at most 20 spans of time, as a bar.
    fn plot(&self, arrivals: &[Arrival]) -> String {
        let (first, last) = match (
            arrivals.first(),
            arrivals.get(self.after.len().wrapping_sub(1)),
        ) {
            (Some(first), Some(last)) => (first.time, last.time),
            _ => return String::new(),
        };
        let mut spans = vec![None; 20];
        for (arrival, fill) in arrivals.iter().zip(&self.after) {
            let passed = u128::from(arrival.time - first) * 20 / u128::from(last - first + 1);
            let span = &mut spans[passed as usize];
            *span = Some((*fill).max(span.unwrap_or(0)));
        }
        let mut text = String::new();
        for (index, span) in spans.iter().enumerate() {
            let time = first + ((u128::from(last - first)) * index as u128 / 20) as u64;
            if let Some(fill) = span {
                let bar = bar(*fill, self.highest.max(FULL));
                let (time, fill) = (seconds(time, UNIT), bytes(*fill));
                text.push_str(&format!("  {time:>14} s  {fill:>9}  {bar}\n"));
            }
        }
        text
    }

    pub fn json(&self, name: &str, arrivals: &[Arrival]) -> Json {
        let overrun = self.above.map(|index| {
            let arrival = &arrivals[index];
            Json::Object(vec![
                ("arrival", index.into()),
                ("time", arrival.time.into()),
                ("seconds", Json::Decimal(seconds(arrival.time, UNIT))),
                ("packet", Json::option(arrival.packet.map(Json::from))),
                ("fill_bytes", Json::Decimal(bytes(self.after[index]))),
            ])
        });
        let refusal = self.refused.map(|refused| {
            Json::Object(vec![
                ("number", refused.number.into()),
                ("name", Json::text(refusals::name(refused.number))),
                ("place", refused.place.into()),
            ])
        });
        Json::Object(vec![
            ("file", Json::text(name)),
            ("rate", self.rate.into()),
            ("arrivals", arrivals.len().into()),
            ("refusal", Json::option(refusal)),
            ("highest", self.highest.into()),
            ("highest_bytes", Json::Decimal(bytes(self.highest))),
            ("overrun", Json::option(overrun)),
        ])
    }
}
