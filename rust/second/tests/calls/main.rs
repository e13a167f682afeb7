//! The calls held against the paper.

mod desk;
mod lamports;
mod marks;
mod paper;
mod refusals;
mod savings;
