//! Every number at its boundary and one past it, and refusals in pairs.

use crate::helpers::replay::{Caller, Trace, in_c};
use crate::kit::{Definition, Suite, labels};
use av1ts::replay::ReplayState;
use reference::replay::{
    CONDITIONS, MOST_ARRIVALS, MOST_BYTES, MOST_RATE, SECOND, SIZE, State, drain_at_once, fill_of,
};

pub const SUITE: Definition = Definition {
    name: "replay-boundaries",
    labels: || labels(&[CONDITIONS, LABELS].concat()),
    run,
};

const LABELS: &[&str] = &[
    "to the end",
    "rate 1",
    "rate 1,000,000,000",
    "rate 1,000,000,001",
    "rate 0",
    "count 0",
    "count 188",
    "count 189",
    "27,000,000 ticks",
    "27,000,001 ticks",
    "equal times",
    "one tick back",
    "the first time is any",
    "drained to exactly 0",
    "drained to all but one",
    "drained past 0",
    "fill exactly 512 bytes",
    "fill one byte above",
    "fill above by less than a byte",
    "the highest fill is kept",
    "the first above is kept",
    "the 1,000,000th arrival",
    "the 1,000,001st arrival",
    "1,000,000 arrivals in one run",
    "the highest fill that there is",
    "more times",
    "more byte counts",
    "47 at place 0 before 46",
    "46 before 47 by the count",
    "46 before 47 by the arrivals",
    "the size is 512 bytes",
];

/// The state after so many arrivals of no bytes, the last at a time.
fn after(arrivals: u64, last: u64) -> ReplayState {
    let state = State {
        last: Some(last),
        arrivals,
        ..State::default()
    };
    in_c(&state).expect("small numbers")
}

struct Run<'a> {
    suite: &'a mut Suite,
    caller: Caller,
}

impl Run<'_> {
    fn from(&mut self, state: ReplayState, rate: u64, arrivals: &[(u64, u64)], label: &str) {
        let trace = Trace::new(arrivals);
        let labels = [label];
        self.caller
            .replay(self.suite, state, rate, &trace, drain_at_once, &labels);
    }

    fn fresh(&mut self, rate: u64, arrivals: &[(u64, u64)], label: &str) {
        self.from(ReplayState::default(), rate, arrivals, label);
    }

    fn rates(&mut self) {
        for (rate, label) in [
            (0, "rate 0"),
            (1, "rate 1"),
            (2, "rate 2"),
            (MOST_RATE - 1, "rate 999,999,999"),
            (MOST_RATE, "rate 1,000,000,000"),
            (MOST_RATE + 1, "rate 1,000,000,001"),
            (1 << 32, "rate above 32 bits"),
            ((1 << 32) + 1, "rate above 32 bits"),
            (u64::MAX, "rate above 32 bits"),
        ] {
            for arrivals in [
                &[][..],
                &[(5, 188)],
                &[(5, 188), (6, 188), (10_000, 10)],
                &[(5, 188), (6, 188), (SECOND, 100), (SECOND + 40, 0)],
            ] {
                self.fresh(rate, arrivals, label);
                self.from(after(3, 4), rate, arrivals, label);
            }
            // With a wrong arrival too: 47 at place 0 comes first, where it is the rate.
            for arrivals in [&[(3, 189)][..], &[(3, 1), (2, 1)], &[(SECOND + 5, 1)]] {
                let label = if rate == 0 || rate > MOST_RATE {
                    "47 at place 0 before 46"
                } else {
                    label
                };
                self.from(after(1, 4), rate, arrivals, label);
            }
        }
    }

    fn numbers_of_arrivals(&mut self) {
        for times in 0..5 {
            for counts in 0..5 {
                let trace = Trace {
                    times: vec![9; times],
                    counts: vec![9; counts],
                };
                let label = match times.cmp(&counts) {
                    std::cmp::Ordering::Less => "more byte counts",
                    std::cmp::Ordering::Equal => "as many",
                    std::cmp::Ordering::Greater => "more times",
                };
                // From a later last time, 46 would be at place 0.
                for state in [ReplayState::default(), after(1, 9), after(1, 10)] {
                    let labels = [label];
                    let (suite, caller) = (&mut *self.suite, &mut self.caller);
                    caller.replay(suite, state, 7, &trace, drain_at_once, &labels);
                }
            }
        }
    }

    fn counts(&mut self) {
        for (count, label) in [
            (0, "count 0"),
            (1, "count 1"),
            (MOST_BYTES - 1, "count 187"),
            (MOST_BYTES, "count 188"),
            (MOST_BYTES + 1, "count 189"),
            (256, "count 256"),
            (1 << 32, "count above 32 bits"),
            ((1 << 32) + 5, "count above 32 bits"),
            (u64::MAX, "count above 32 bits"),
        ] {
            self.fresh(1000, &[(0, count)], label);
            self.fresh(1000, &[(0, 7), (20, count), (30, 9)], label);
            self.fresh(1000, &[(0, 7), (20, 8), (30, count)], label);
        }
    }

    fn times(&mut self) {
        for base in [0, 1, 500, 1 << 32, u64::MAX - SECOND - 2, u64::MAX - 3] {
            self.fresh(50_000_000, &[(base, 100)], "the first time is any");
            for (ticks, label) in [
                (0, "equal times"),
                (1, "one tick"),
                (SECOND - 1, "26,999,999 ticks"),
                (SECOND, "27,000,000 ticks"),
                (SECOND + 1, "27,000,001 ticks"),
                (2 * SECOND, "more ticks"),
                (1 << 32, "more ticks"),
            ] {
                let time = match base.checked_add(ticks) {
                    Some(time) => time,
                    _ => continue,
                };
                self.fresh(50_000_000, &[(base, 100), (time, 50)], label);
                self.fresh(1, &[(base, 100), (time, 50), (time, 50)], label);
            }
            for back in [1, 2, SECOND, SECOND + 1] {
                if let Some(time) = base.checked_sub(back) {
                    self.fresh(9, &[(base, 100), (time, 50)], "one tick back");
                    self.fresh(9, &[(base, 1), (base, 1), (time, 5)], "one tick back");
                }
            }
        }
        self.fresh(9, &[(u64::MAX, 1), (0, 1)], "one tick back");
        self.fresh(9, &[(0, 1), (u64::MAX, 1)], "27,000,001 ticks");
    }

    fn drains(&mut self) {
        // A byte is taken off each tick.
        let byte = fill_of(1) as u64;
        for bytes in [1, 2, 100, 187, 188] {
            for (ticks, label) in [
                (bytes - 1, "drained to all but one"),
                (bytes, "drained to exactly 0"),
                (bytes + 1, "drained past 0"),
            ] {
                for count in [0, 1, 188] {
                    self.fresh(byte, &[(70, bytes), (70 + ticks, count)], label);
                    self.fresh(byte - 1, &[(70, bytes), (70 + ticks, count)], "by less");
                    self.fresh(byte + 1, &[(70, bytes), (70 + ticks, count)], "by more");
                }
            }
        }
        // At the least rate a second takes off 27,000,000, an eighth of a byte.
        let steps: Vec<(u64, u64)> = (0..10).map(|i| (i * SECOND, u64::from(i == 0))).collect();
        self.fresh(1, &steps, "drained to exactly 0");
        self.fresh(MOST_RATE, &[(0, 188), (41, 0), (42, 1)], "drained past 0");
    }

    fn sizes(&mut self) {
        // 188 + 188 + 136 are 512.
        for (last, label) in [
            (135, "fill one byte below"),
            (136, "fill exactly 512 bytes"),
            (137, "fill one byte above"),
        ] {
            self.fresh(1, &[(0, 188), (0, 188), (0, last)], label);
            // Some ticks later the fill is less by as many times the rate.
            for ticks in [1, 7, SECOND] {
                let label = if last == 137 {
                    "fill above by less than a byte"
                } else {
                    "fill below"
                };
                self.fresh(1, &[(0, 188), (0, 188), (ticks, last)], label);
            }
        }
        // Exactly at the size after a drain, and above it by 1.
        for ticks in [215_999_999, 216_000_000, 216_000_001] {
            let label = "fill above by less than a byte";
            self.fresh(ticks, &[(0, 188), (0, 188), (1, 137)], label);
        }
        let kept = [(0, 188), (0, 188), (0, 188), (SECOND, 0), (SECOND, 188)];
        self.fresh(MOST_RATE, &kept, "the highest fill is kept");
        let twice = [
            (0, 188),
            (0, 188),
            (0, 188),
            (0, 188),
            (SECOND, 188),
            (SECOND, 188),
            (SECOND, 188),
            (SECOND, 188),
            (SECOND, 188),
        ];
        self.fresh(MOST_RATE, &twice, "the first above is kept");
    }

    fn arrivals(&mut self) {
        for before in [MOST_ARRIVALS - 3, MOST_ARRIVALS - 1, MOST_ARRIVALS] {
            let label = match before {
                MOST_ARRIVALS => "the 1,000,001st arrival",
                _ => "the 1,000,000th arrival",
            };
            let state = after(before, 100);
            self.from(state, 5, &[], label);
            self.from(state, 5, &[(100, 1)], label);
            self.from(state, 5, &[(100, 1), (100, 2), (101, 3), (102, 4)], label);
            // A wrong time comes before a wrong count, and before one arrival too many.
            for time in [99, 101 + SECOND] {
                self.from(state, 5, &[(time, 1)], "46 before 47 by the arrivals");
                self.from(state, 5, &[(time, 189)], "46 before 47 by the count");
            }
            self.from(state, 5, &[(100, 189)], label);
        }
        // As many as there can be, in one run and one more; without drain it is the highest fill.
        for (count, label) in [
            (0, "1,000,000 arrivals in one run"),
            (188, "the highest fill that there is"),
        ] {
            for more in [0, 1] {
                let len = MOST_ARRIVALS as usize + more;
                let trace = Trace {
                    times: vec![1 << 40; len],
                    counts: vec![count; len],
                };
                let fresh = ReplayState::default();
                let labels = [label];
                let (suite, caller) = (&mut *self.suite, &mut self.caller);
                let end = caller.replay(suite, fresh, 77, &trace, drain_at_once, &labels);
                // And what a run from there comes to.
                self.from(end.state, 77, &[(1 << 40, 0)], "the 1,000,001st arrival");
                self.from(end.state, 77, &[], "the 1,000,000th arrival");
            }
        }
    }
}

fn run(suite: &mut Suite) {
    let mut run = Run {
        suite,
        caller: Caller::default(),
    };
    run.rates();
    run.numbers_of_arrivals();
    run.counts();
    run.times();
    run.drains();
    run.sizes();
    run.arrivals();
    suite.case(&["the size is 512 bytes"], SIZE == fill_of(512), || {
        format!("{SIZE}")
    });
}
