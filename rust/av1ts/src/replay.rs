//! Replaying the transport buffer.

/// `av1ts_replay_state`: the fresh state is the default. Where `has_last` is 0 there is no last time,
/// where `has_above` is 0 no arrival was above the buffer's size; then `last` or `above` is 0.
#[repr(C)]
#[derive(Clone, Copy, Debug, Default, PartialEq, Eq)]
pub struct ReplayState {
    pub fill: u64,
    pub highest: u64,
    pub has_last: u64,
    pub last: u64,
    pub arrivals: u64,
    pub has_above: u64,
    pub above: u64,
}

/// `av1ts_replayed`: in a refusal the state is the one before the arrival that was refused.
#[repr(C)]
#[derive(Clone, Copy, Debug, Default, PartialEq, Eq)]
pub struct Replayed {
    pub number: u64,
    pub place: u64,
    pub state: ReplayState,
}

c_functions! {
    /// Replays arrivals, each a time and a byte count, from a state on, at a drain rate in bits a
    /// second. A state that no run reaches is number 47 at place 0.
    av1ts_replay as replay(
        state: ReplayState, rate: u64, in times: u64, in counts: u64
    ) -> Replayed;
}
