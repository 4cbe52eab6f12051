//! Ticks taken one by one, on short runs, against the library; and on longer ones all at once.

use crate::helpers::replay::{Caller, any_rate, any_trace};
use crate::kit::{Definition, Random, Suite, labels};
use av1ts::replay::ReplayState;
use reference::replay::{SECOND, drain_at_once, drain_by_ticks};

pub const SUITE: Definition = Definition {
    name: "replay-ticks",
    labels: || {
        labels(&[
            "at once as by ticks",
            "tick by tick",
            "at once",
            "long run",
            "to the end",
            "none above",
            "one above",
            "no arrival",
            "46: a time that goes back",
            "46: over 27,000,000 ticks since the last",
            "47: a byte count above 188",
        ])
    },
    run,
};

fn run(suite: &mut Suite) {
    let mut caller = Caller::default();
    let mut random = Random::new(16);

    two_ways(suite, &mut random);
    let fresh = ReplayState::default();
    for round in 0..20_000 {
        let rate = any_rate(&mut random);
        let mut trace = any_trace(&mut random, 30, 400);
        let arrivals = trace.times.len();
        if round % 4 == 0 && arrivals > 1 {
            // Something is wrong from some arrival on.
            let at = 1 + random.below(arrivals - 1);
            match random.below(3) {
                0 => trace.times[at] = trace.times[at - 1].wrapping_sub(1),
                1 => trace.times[at] = trace.times[at].wrapping_add(SECOND + 1),
                _ => trace.counts[at] = 189 + random.below(100) as u64,
            }
        }
        let mut more = vec!["tick by tick"];
        if arrivals == 0 {
            more.push("no arrival");
        }
        // A jump of a second is too long to be taken tick by tick.
        let far = |pair: &[u64]| pair[1].wrapping_sub(pair[0]) > 100_000;
        let drain = if trace.times.windows(2).any(far) {
            more[0] = "at once";
            drain_at_once
        } else {
            drain_by_ticks
        };
        caller.replay(suite, fresh, rate, &trace, drain, &more);
    }
    for _ in 0..3000 {
        let rate = any_rate(&mut random);
        let most_ticks = random.pick(&[1000, 100_000, 1_000_000, SECOND as usize]);
        let trace = any_trace(&mut random, 200, most_ticks);
        caller.replay(suite, fresh, rate, &trace, drain_at_once, &["at once"]);
    }
    for _ in 0..5 {
        // A stream of 8 Mbit/s, a packet each 5076 ticks or so, drained at rates around that.
        let rate = 7_000_000 + random.below(2_000_000) as u64;
        let trace = any_trace(&mut random, 60_000, 13_000);
        caller.replay(suite, fresh, rate, &trace, drain_at_once, &["long run"]);
    }
}

/// The reference's own two ways.
fn two_ways(suite: &mut Suite, random: &mut Random) {
    for _ in 0..20_000 {
        let rate = any_rate(random);
        let ticks = random.below(300) as u64;
        let around = u128::from(rate) * u128::from(ticks);
        let fill = match random.below(3) {
            0 => around.saturating_sub(1) + random.below(3) as u128,
            1 => u128::from(random.next() >> 20),
            _ => around * random.below(4) as u128 / 2,
        };
        let (one, other) = (
            drain_by_ticks(fill, rate, ticks),
            drain_at_once(fill, rate, ticks),
        );
        suite.case(&["at once as by ticks"], one == other, || {
            format!("{fill} at {rate} for {ticks}: {one} and {other}")
        });
    }
}
