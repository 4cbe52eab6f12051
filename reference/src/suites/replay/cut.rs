//! A trace in two runs, cut at every place: the first run's end state is handed to the second, and
//! both report as one. Where an arrival is refused, the place is its index in its own run.

use crate::helpers::replay::{Caller, Trace, any_rate, any_trace};
use crate::kit::{Definition, Random, Suite, labels};
use av1ts::replay::{ReplayState, Replayed};
use reference::replay::{SECOND, drain_at_once};

pub const SUITE: Definition = Definition {
    name: "replay-cut",
    labels: || {
        labels(&[
            "to the end",
            "46: a time that goes back",
            "46: over 27,000,000 ticks since the last",
            "47: a byte count above 188",
            "none above",
            "one above",
            "two runs as one",
            "cut at the front",
            "cut at the end",
            "cut in the middle",
            "above before the cut",
            "above after the cut",
            "refused before the cut",
            "refused behind the cut",
            "one arrival a run",
        ])
    },
    run,
};

/// One trace in two runs, cut at a place.
fn cut(suite: &mut Suite, caller: &mut Caller, rate: u64, trace: &Trace, at: usize) {
    let (times, counts) = (trace.times.split_at(at), trace.counts.split_at(at));
    let first = Trace {
        times: times.0.to_vec(),
        counts: counts.0.to_vec(),
    };
    let second = Trace {
        times: times.1.to_vec(),
        counts: counts.1.to_vec(),
    };
    let fresh = ReplayState::default();
    let whole = caller.call(fresh, rate, trace);
    let one = caller.replay(suite, fresh, rate, &first, drain_at_once, &[]);
    let two = caller.replay(suite, one.state, rate, &second, drain_at_once, &[]);
    let mut labels = vec!["two runs as one"];
    labels.push(match at {
        0 => "cut at the front",
        _ if at == trace.times.len() => "cut at the end",
        _ => "cut in the middle",
    });
    if whole.state.has_above == 1 {
        labels.push(if one.state.has_above == 1 {
            "above before the cut"
        } else {
            "above after the cut"
        });
    }
    // Where the first run was refused, that is where the whole stops.
    let expected = if one.number != 0 {
        labels.push("refused before the cut");
        one
    } else {
        let mut place = two.place;
        if two.number != 0 {
            labels.push("refused behind the cut");
            place += at as u64;
        }
        Replayed { place, ..two }
    };
    suite.case(&labels, whole == expected, || {
        format!("cut at {at}, rate {rate}: whole {whole:?}, first {one:?}, second {two:?}")
    });
}

fn run(suite: &mut Suite) {
    let mut caller = Caller::default();
    let mut random = Random::new(17);
    for round in 0..3000 {
        let rate = any_rate(&mut random);
        let most_ticks = random.pick(&[40, 1000, 500_000, SECOND as usize]);
        let mut trace = any_trace(&mut random, 24, most_ticks);
        let arrivals = trace.times.len();
        if round % 3 == 0 && arrivals > 1 {
            let at = 1 + random.below(arrivals - 1);
            match random.below(3) {
                0 => trace.times[at] = trace.times[at - 1].wrapping_sub(1),
                1 => trace.times[at] = trace.times[at - 1].wrapping_add(SECOND + 1),
                _ => trace.counts[at] = 189,
            }
        }
        for at in 0..=arrivals {
            cut(suite, &mut caller, rate, &trace, at);
        }

        // Arrival by arrival.
        let whole = caller.call(ReplayState::default(), rate, &trace);
        let mut state = ReplayState::default();
        let mut refused = None;
        for (index, (&time, &count)) in trace.times.iter().zip(&trace.counts).enumerate() {
            let step = caller.call(state, rate, &Trace::new(&[(time, count)]));
            state = step.state;
            if step.number != 0 {
                refused = Some((step.number, index as u64));
                break;
            }
        }
        let (number, place) = refused.unwrap_or((0, 0));
        let passed = whole
            == Replayed {
                number,
                place,
                state,
            };
        suite.case(&["one arrival a run"], passed, || {
            format!("rate {rate}: whole {whole:?}, by arrivals {number} {place} {state:?}")
        });
    }
}
