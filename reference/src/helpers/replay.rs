//! Replays, compared with the reference, and traces to run.

use crate::kit::{Given, Random, Suite};
use av1ts::replay::{ReplayState, Replayed};
use reference::replay::{self, Drain, MOST_BYTES, MOST_RATE, State};

/// A state as the C interface has it, where its numbers have room there.
pub fn in_c(state: &State) -> Option<ReplayState> {
    Some(ReplayState {
        fill: state.fill.try_into().ok()?,
        highest: state.highest.try_into().ok()?,
        has_last: u64::from(state.last.is_some()),
        last: state.last.unwrap_or(0),
        arrivals: state.arrivals,
        has_above: u64::from(state.above.is_some()),
        above: state.above.unwrap_or(0),
    })
}

/// The other way, where its flags are 0 or 1.
pub fn from_c(state: &ReplayState) -> State {
    State {
        fill: state.fill.into(),
        highest: state.highest.into(),
        last: (state.has_last == 1).then_some(state.last),
        arrivals: state.arrivals,
        above: (state.has_above == 1).then_some(state.above),
    }
}

/// What the C interface answers to a run, where its numbers have room there.
pub fn answer(replayed: &replay::Replayed) -> Option<Replayed> {
    let (state, end) = replayed;
    let (number, place) = match end {
        Ok(()) => (0, 0),
        Err(refusal) => (refusal.number, refusal.place),
    };
    Some(Replayed {
        number,
        place,
        state: in_c(state)?,
    })
}

/// Arrivals: times and byte counts.
#[derive(Clone, Debug, Default)]
pub struct Trace {
    pub times: Vec<u64>,
    pub counts: Vec<u64>,
}

impl Trace {
    pub fn new(arrivals: &[(u64, u64)]) -> Trace {
        Trace {
            times: arrivals.iter().map(|&(time, _)| time).collect(),
            counts: arrivals.iter().map(|&(_, count)| count).collect(),
        }
    }

    pub fn push(&mut self, time: u64, count: u64) {
        self.times.push(time);
        self.counts.push(count);
    }
}

/// A rate of every magnitude.
pub fn any_rate(random: &mut Random) -> u64 {
    match random.below(5) {
        0 => random.pick(&[1, 2, 27_000_000, 216_000_000, MOST_RATE - 1, MOST_RATE]),
        1 => 1 + random.below(MOST_RATE as usize) as u64,
        2 => 1 + random.below(1000) as u64,
        _ => 10_000_000 + random.below(200_000_000) as u64,
    }
}

/// A trace that is not refused: up to so many arrivals, each up to so many ticks after the last.
pub fn any_trace(random: &mut Random, most: usize, most_ticks: usize) -> Trace {
    let mut time = match random.below(4) {
        0 => 0,
        1 => u64::MAX - (most * most_ticks) as u64,
        _ => random.next() >> 22,
    };
    let mut trace = Trace::default();
    for _ in 0..random.below(most + 1) {
        let count = match random.below(4) {
            0 => 0,
            1 => random.below(MOST_BYTES as usize + 1) as u64,
            _ => MOST_BYTES,
        };
        trace.push(time, count);
        time += match random.below(4) {
            0 => 0,
            1 => random.below(most_ticks.min(50) + 1),
            _ => random.below(most_ticks + 1),
        } as u64;
    }
    trace
}

/// The buffers of one caller, used again from call to call.
#[derive(Default)]
pub struct Caller {
    times: Given<u64>,
    counts: Given<u64>,
}

impl Caller {
    /// Runs a trace from a state on and compares with the reference; answers what the library did.
    pub fn replay(
        &mut self,
        suite: &mut Suite,
        state: ReplayState,
        rate: u64,
        trace: &Trace,
        drain: Drain,
        more: &[&str],
    ) -> Replayed {
        let got = self.call(state, rate, trace);
        let run = replay::replay(from_c(&state), rate, &trace.times, &trace.counts, drain);
        let expected = answer(&run).expect("a run's numbers have room");
        let mut labels = more.to_vec();
        labels.push(match &run.1 {
            Ok(()) => "to the end",
            Err(refusal) => refusal.condition,
        });
        labels.push(match run.0.above {
            None => "none above",
            Some(_) => "one above",
        });
        let passed = got == expected && self.unchanged(trace);
        suite.case(&labels, passed, || {
            format!(
                "rate {rate}, {state:?}: expected {expected:?}, got {got:?}; {} arrivals {:?} {:?}",
                trace.times.len(),
                &trace.times[..trace.times.len().min(20)],
                &trace.counts[..trace.counts.len().min(20)]
            )
        });
        got
    }

    /// The library's answer alone.
    pub fn call(&mut self, state: ReplayState, rate: u64, trace: &Trace) -> Replayed {
        self.times.give(&trace.times);
        self.counts.give(&trace.counts);
        av1ts::replay::replay(state, rate, self.times.part(), self.counts.part())
    }

    pub fn unchanged(&self, trace: &Trace) -> bool {
        self.times.unchanged(&trace.times) && self.counts.unchanged(&trace.counts)
    }
}
