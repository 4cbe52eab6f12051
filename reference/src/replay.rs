//! Replaying the transport buffer of 512 bytes (000, 3.6.2).

use crate::refusal::Refusal;

/// Ticks of 27 MHz in a second. "Fill is kept exactly in bits times 27,000,000".
pub const SECOND: u64 = 27_000_000;

/// "a byte count up to 188, and a drain rate in whole bits per second, 1 to 1,000,000,000"
pub const MOST_BYTES: u64 = 188;
pub const MOST_RATE: u64 = 1_000_000_000;

/// "the 1,000,000th since the fresh state"
pub const MOST_ARRIVALS: u64 = 1_000_000;

/// "above 4,096 times 27,000,000"
pub const SIZE: u128 = 4096 * SECOND as u128;

/// What so many bytes are as fill.
pub fn fill_of(bytes: u64) -> u128 {
    u128::from(bytes) * 8 * u128::from(SECOND)
}

/// "A fresh state has fill and highest fill 0, no last time and no arrivals."
#[derive(Clone, Copy, Debug, Default, PartialEq, Eq)]
pub struct State {
    pub fill: u128,
    pub highest: u128,
    pub last: Option<u64>,
    pub arrivals: u64,
    /// "the index of the first arrival above", as counted since the fresh state.
    pub above: Option<u64>,
}

/// What ends a run: a refusal or the trace's end; and the state there.
pub type Replayed = (State, Result<(), Refusal>);

/// A fill after some ticks at a rate.
pub type Drain = fn(u128, u64, u64) -> u128;

/// "each elapsed tick takes off the rate, never below zero": tick by tick.
pub fn drain_by_ticks(mut fill: u128, rate: u64, ticks: u64) -> u128 {
    for _ in 0..ticks {
        if fill > u128::from(rate) {
            fill -= u128::from(rate);
        } else {
            fill = 0;
        }
    }
    fill
}

/// The same at once.
pub fn drain_at_once(fill: u128, rate: u64, ticks: u64) -> u128 {
    fill.saturating_sub(u128::from(rate) * u128::from(ticks))
}

/// The conditions of 46 and 47.
pub const CONDITIONS: &[&str] = &[
    "47: rate 0",
    "47: rate above 1,000,000,000",
    "47: times and byte counts unlike in number",
    "46: a time that goes back",
    "46: over 27,000,000 ticks since the last",
    "47: a byte count above 188",
    "47: past the 1,000,000th arrival",
];

/// A run over a trace: "47 at place 0 for the rate, or for times and byte counts unlike in number,
/// before any arrival; then at each arrival 46 .., 47 ..; the run stops, with the arrival's index in
/// that run's trace as place and the state as before that arrival."
pub fn replay(
    mut state: State,
    rate: u64,
    times: &[u64],
    counts: &[u64],
    drain: Drain,
) -> Replayed {
    if rate == 0 {
        return (state, Err(Refusal::new(47, 0, "47: rate 0")));
    }
    if rate > MOST_RATE {
        let refusal = Refusal::new(47, 0, "47: rate above 1,000,000,000");
        return (state, Err(refusal));
    }
    if times.len() != counts.len() {
        let refusal = Refusal::new(47, 0, "47: times and byte counts unlike in number");
        return (state, Err(refusal));
    }
    for (index, (&time, &count)) in times.iter().zip(counts).enumerate() {
        match arrive(state, rate, time, count, index, drain) {
            Ok(next) => state = next,
            Err(refusal) => return (state, Err(refusal)),
        }
    }
    (state, Ok(()))
}

/// One arrival: its refusals in turn, then the state after it.
fn arrive(
    mut state: State,
    rate: u64,
    time: u64,
    count: u64,
    index: usize,
    drain: Drain,
) -> Result<State, Refusal> {
    if let Some(last) = state.last {
        if time < last {
            return Err(Refusal::new(46, index, "46: a time that goes back"));
        }
        if time - last > SECOND {
            let condition = "46: over 27,000,000 ticks since the last";
            return Err(Refusal::new(46, index, condition));
        }
        state.fill = drain(state.fill, rate, time - last);
    }
    if count > MOST_BYTES {
        return Err(Refusal::new(47, index, "47: a byte count above 188"));
    }
    if state.arrivals == MOST_ARRIVALS {
        return Err(Refusal::new(47, index, "47: past the 1,000,000th arrival"));
    }
    state.fill += fill_of(count);
    if state.fill > state.highest {
        state.highest = state.fill;
    }
    if state.fill > SIZE && state.above.is_none() {
        state.above = Some(state.arrivals);
    }
    state.last = Some(time);
    state.arrivals += 1;
    Ok(state)
}
