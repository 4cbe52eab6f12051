//! Stepping through one access unit.

/// `av1ts_step`. A payload has `end` 0, its place in the unit, and the place of the next step; the
/// end has `end` 1. In a refusal and at the end `next_at` is the place handed in.
#[repr(C)]
#[derive(Clone, Copy, Debug, Default, PartialEq, Eq)]
pub struct Step {
    pub number: u64,
    pub place: u64,
    pub end: u64,
    pub start: u64,
    pub length: u64,
    pub next_at: u64,
}

c_functions! {
    /// Number 9, or `next_at` of the first step.
    av1ts_walk_start as walk_start(in unit: u8) -> Step;

    /// The step at the place `at`, which is any number: one that no walk reaches is no misuse.
    av1ts_walk_step as walk_step(in unit: u8, at: usize) -> Step;
}
