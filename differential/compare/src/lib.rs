//! Runs of the Rust and of our calls on the same messages, side by side.

pub mod check;
pub mod generate;
pub mod kinds;
#[cfg(feature = "library")]
pub mod library;
pub mod lines;
pub mod model;
pub mod rust;
pub mod smaller;
pub mod tally;
