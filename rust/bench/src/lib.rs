//! What the benchmarks share: the sides, their inputs, and the timing.

mod anchor;
pub mod merge;
pub mod opened;
pub mod receives;
pub mod rows;
pub mod sides;
pub mod tasks;
pub mod timing;
