//! A trace in the transport buffer.

use super::Refused;
use crate::replay::{ReplayState, replay};

/// An arrival: its time in ticks of 27 MHz, and its bytes.
#[derive(Clone, Copy, Debug, PartialEq, Eq)]
pub struct Arrival {
    pub time: u64,
    pub bytes: u64,
}

/// A replay of the 512-byte transport buffer, fresh or behind some runs.
#[derive(Clone, Copy, Debug, Default, PartialEq, Eq)]
pub struct Replay {
    state: ReplayState,
}

impl Replay {
    /// A fresh buffer.
    pub fn new() -> Replay {
        Replay::default()
    }

    /// A replay that goes on from a state.
    pub fn from_state(state: ReplayState) -> Replay {
        Replay { state }
    }

    /// The state, which `from_state` goes on from.
    pub fn state(&self) -> ReplayState {
        self.state
    }

    /// Runs over arrivals at a drain rate in bits a second. Where one is refused, those before it
    /// count.
    ///
    /// ```
    /// use av1ts::{Arrival, Replay};
    /// let mut replay = Replay::new();
    /// // four packets at once: 6,016 bits
    /// replay.run(1_000_000, &[Arrival { time: 0, bytes: 188 }; 4])?;
    /// assert_eq!(replay.highest_bits(), 6016);
    /// assert_eq!(replay.first_above(), Some(2));
    /// let late = replay.run(1_000_000, &[Arrival { time: 30_000_000, bytes: 188 }]);
    /// assert_eq!(late.unwrap_err().why, av1ts::Refusal::ArrivalTime);
    /// # Ok::<(), av1ts::Refused>(())
    /// ```
    pub fn run(&mut self, rate: u64, arrivals: &[Arrival]) -> Result<(), Refused> {
        let times: Vec<u64> = arrivals.iter().map(|arrival| arrival.time).collect();
        let counts: Vec<u64> = arrivals.iter().map(|arrival| arrival.bytes).collect();
        let answer = replay(self.state, rate, &times, &counts);
        self.state = answer.state;
        Refused::check(answer.number, answer.place)
    }

    /// The highest fill in bits, rounded up.
    pub fn highest_bits(&self) -> u64 {
        let ticks = 27_000_000;
        self.state.highest / ticks + u64::from(self.state.highest % ticks != 0)
    }

    /// The index, since the fresh buffer, of the first arrival after which it held over 4,096 bits.
    pub fn first_above(&self) -> Option<u64> {
        (self.state.has_above != 0).then_some(self.state.above)
    }
}
