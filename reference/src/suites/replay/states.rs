//! States that no run reaches: 47 at place 0, and the state is given back as it was.

use crate::helpers::replay::{Caller, Trace, any_rate, any_trace};
use crate::kit::{Definition, Random, Suite, labels};
use av1ts::replay::{ReplayState, Replayed};
use reference::replay::{MOST_ARRIVALS, MOST_BYTES, SIZE, drain_at_once, fill_of};

pub const SUITE: Definition = Definition {
    name: "replay-states",
    labels: || {
        labels(&[
            "a state of a run",
            "has_last above 1",
            "has_above above 1",
            "no last time, but one in its place",
            "no last time, but arrivals",
            "no last time, but a fill",
            "no last time, but a highest fill",
            "no last time, but one above",
            "a last time, but no arrivals",
            "more than 1,000,000 arrivals",
            "fill above the highest",
            "highest above what so many arrivals bring",
            "none above, but one in its place",
            "none above, but the highest is",
            "one above, but the highest is not",
            "the one above has not arrived",
            "with a wrong rate too",
            "with a wrong arrival too",
            "with no arrival",
            "any numbers: refused",
            "any numbers: replayed",
        ])
    },
    run,
};

/// A state that a run came to, changed in ways that take it to where no run comes.
struct Changes<'a> {
    state: &'a ReplayState,
    list: Vec<(&'static str, ReplayState)>,
}

impl Changes<'_> {
    fn add(&mut self, label: &'static str, change: impl FnOnce(&mut ReplayState)) {
        let mut changed = *self.state;
        change(&mut changed);
        self.list.push((label, changed));
    }

    /// Flags, arrivals and fills; `any` is a number that is not 0.
    fn of_all(&mut self, any: u64, flag: u64) {
        let most_fill = fill_of(MOST_BYTES) as u64;
        self.add("has_last above 1", |state| state.has_last = flag);
        self.add("has_above above 1", |state| state.has_above = flag);
        self.add("more than 1,000,000 arrivals", |state| {
            state.has_last = 1;
            state.arrivals = MOST_ARRIVALS + any;
        });
        let label = "fill above the highest";
        self.add(label, |state| state.fill = state.highest + 1);
        self.add(label, |state| state.fill = u64::MAX - any);
        let label = "highest above what so many arrivals bring";
        self.add(label, |state| {
            state.highest = state.arrivals * most_fill + 1
        });
        self.add(label, |state| {
            (state.fill, state.highest) = (u64::MAX, u64::MAX)
        });
    }

    /// The last time and the arrivals.
    fn of_last(&mut self, any: u64) {
        if self.state.has_last == 1 {
            self.add("no last time, but arrivals", |state| {
                (state.has_last, state.last) = (0, 0)
            });
            self.add("a last time, but no arrivals", |state| state.arrivals = 0);
            return;
        }
        let label = "no last time, but one in its place";
        self.add(label, |state| state.last = any);
        let label = "no last time, but arrivals";
        self.add(label, |state| state.arrivals = 1 + any % 100);
        self.add("no last time, but a fill", |state| {
            (state.fill, state.highest) = (1, 1)
        });
        let label = "no last time, but a highest fill";
        self.add(label, |state| state.highest = any);
        let label = "no last time, but one above";
        self.add(label, |state| state.has_above = 1);
        self.add("a last time, but no arrivals", |state| {
            (state.has_last, state.last) = (1, any)
        });
    }

    /// The first arrival above, and the highest fill.
    fn of_above(&mut self, any: u64) {
        let arrivals = self.state.arrivals;
        let (in_place, highest_is, highest_is_not) = (
            "none above, but one in its place",
            "none above, but the highest is",
            "one above, but the highest is not",
        );
        if self.state.has_above == 0 {
            self.add(in_place, |state| state.above = any);
            if arrivals > 0 {
                self.add(highest_is_not, |state| {
                    (state.has_above, state.above) = (1, arrivals - 1)
                });
            }
            if arrivals > 3 {
                self.add(highest_is, |state| state.highest = SIZE as u64 + 1);
            }
            return;
        }
        self.add(in_place, |state| {
            (state.has_above, state.above) = (0, state.above.max(1))
        });
        self.add(highest_is, |state| (state.has_above, state.above) = (0, 0));
        self.add(highest_is_not, |state| {
            (state.fill, state.highest) = (0, SIZE as u64)
        });
        for above in [arrivals, arrivals + any] {
            let label = "the one above has not arrived";
            self.add(label, |state| state.above = above);
        }
    }
}

/// The changes of a state, each with what is then wrong.
fn changes(state: &ReplayState, random: &mut Random) -> Vec<(&'static str, ReplayState)> {
    let any = 1 + random.below(1 << 30) as u64;
    let flag = random.pick(&[2, 3, 256, 1 << 32, u64::MAX]);
    let list = Vec::new();
    let mut changes = Changes { state, list };
    changes.of_all(any, flag);
    changes.of_last(any);
    changes.of_above(any);
    changes.list
}

/// Whether a state's numbers contradict each other, by the header's words: "has_last or has_above
/// neither 1 nor 0 with a 0 beside it; arrivals above 1,000,000; fill above highest; highest above
/// arrivals times 40,608,000,000; a last time without arrivals or arrivals without one; above not
/// below arrivals, or not there exactly where highest is above 4,096 times 27,000,000".
fn contradicts(state: &ReplayState) -> bool {
    let is_flag = |has, beside| has == 1 || (has, beside) == (0, 0);
    let highest = u128::from(state.highest);
    !is_flag(state.has_last, state.last)
        || !is_flag(state.has_above, state.above)
        || state.arrivals > MOST_ARRIVALS
        || state.fill > state.highest
        || highest > u128::from(state.arrivals) * fill_of(MOST_BYTES)
        || (state.has_last == 1) != (state.arrivals > 0)
        || state.has_above == 1 && state.above >= state.arrivals
        || (state.has_above == 1) != (highest > SIZE)
}

/// The answer to a state that no run reaches.
fn of_47(state: ReplayState) -> Replayed {
    Replayed {
        number: 47,
        place: 0,
        state,
    }
}

/// 47 at place 0 and the state as it was, whatever the rate and the trace are.
fn refused(suite: &mut Suite, caller: &mut Caller, label: &str, state: ReplayState, time: u64) {
    for (rate, trace, how) in [
        (1000, Trace::new(&[(time, 5)]), "with a right arrival"),
        (1000, Trace::default(), "with no arrival"),
        (0, Trace::new(&[(time, 5)]), "with a wrong rate too"),
        (7, Trace::new(&[(time, 189)]), "with a wrong arrival too"),
    ] {
        let got = caller.call(state, rate, &trace);
        let expected = of_47(state);
        let passed = contradicts(&state) && got == expected && caller.unchanged(&trace);
        suite.case(&[label, how], passed, || {
            format!("{state:?}: expected 47, got {got:?}")
        });
    }
}

/// A state of any numbers: refused exactly where they contradict each other, else replayed as the
/// rules say of it.
fn any_numbers(suite: &mut Suite, caller: &mut Caller, random: &mut Random) {
    let mut number = |most: u64| match random.below(4) {
        0 => 0,
        1 => random.next() % 4,
        2 => random.next() % (most + 1),
        _ => random.next(),
    };
    let state = ReplayState {
        fill: number(1 << 40),
        highest: number(1 << 40),
        has_last: number(1),
        last: number(1 << 40),
        arrivals: number(MOST_ARRIVALS),
        has_above: number(1),
        above: number(100),
    };
    let rate = any_rate(random);
    let trace = Trace::new(&[(state.last, 7), (state.last.saturating_add(5), 188)]);
    if contradicts(&state) {
        let got = caller.call(state, rate, &trace);
        let passed = got == of_47(state);
        suite.case(&["any numbers: refused"], passed, || {
            format!("{state:?}: expected 47, got {got:?}")
        });
    } else {
        let labels = ["any numbers: replayed"];
        caller.replay(suite, state, rate, &trace, drain_at_once, &labels);
    }
}

fn run(suite: &mut Suite) {
    let mut caller = Caller::default();
    let mut random = Random::new(18);
    for round in 0..4000 {
        let rate = any_rate(&mut random);
        let most_ticks = random.pick(&[40, 1000, 100_000]);
        let trace = any_trace(&mut random, 20, most_ticks);
        let labels = ["a state of a run"];
        let fresh = ReplayState::default();
        let end = caller.replay(suite, fresh, rate, &trace, drain_at_once, &labels);
        let time = trace.times.last().copied().unwrap_or(round);
        for (label, state) in changes(&end.state, &mut random) {
            refused(suite, &mut caller, label, state, time);
        }
    }
    for _ in 0..100_000 {
        any_numbers(suite, &mut caller, &mut random);
    }
}
