//! The second program: course sheets in the plainest way, as a second opinion on the library.
//!
//! It keeps whole clocks, real queues and the clock of each previous send, and compares clocks to
//! cut a stamp. It is written to be held against the paper sentence by sentence, not to be fast.

pub mod calls;
pub mod clock;
pub mod event;
pub mod examples;
pub mod judge;
pub mod machine;
pub mod marking;
pub mod packed;
pub mod questions;
pub mod refusal;
pub mod saving;
pub mod sheet;
pub mod stamp;
pub mod text;

pub use refusal::{Check, Refusal};
