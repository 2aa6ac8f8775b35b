//! The planner's engine in plain Rust and without proofs: the same steps as the
//! crates grid, loads, placing, stretches, energy, bill and listing, to compare times with.

mod listing;
mod loads;
mod method;
mod search;
mod sheet;

pub use listing::{plan, plan_both, PLACING_WORDS, PLAN_BYTES};
pub use loads::{bounds, shortfall, shortfall_by_slot};

pub const SLOTS: usize = 96;
pub const BLOWERS: usize = 8;
pub const RATIONS: usize = 64;

/// One word for each slot, bit j for ration j.
type Words = [u64; SLOTS];
/// One small number for each slot.
type Bytes = [u8; SLOTS];

/// What a planning call answers.
#[derive(Clone, Copy, Debug, PartialEq, Eq)]
pub struct Planned {
    pub number: u32,
    pub line: u32,
    pub length: usize,
}
