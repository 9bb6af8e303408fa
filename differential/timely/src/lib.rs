//! A stand-in of our own for the crate timely: as much as `capture.rs` and `lattice.rs` touch.
//!
//! Orders, frontiers and counts mean what docs/RULES.md says of them, without its limits.
//! Scheduling is one worker whose operators run when the driver says so (`worker`), so that a
//! call of ours can be set beside exactly the operator that stands for it.

pub mod dataflow;
pub mod order;
pub mod progress;
pub mod scheduling;
pub mod worker;

pub use order::PartialOrder;

/// What may travel along a stream.
pub trait Data: Clone + 'static {}
impl<T: Clone + 'static> Data for T {}

/// What may travel between workers. There is one worker, so it is asked nothing more.
pub trait ExchangeData: Data {}
impl<T: Data> ExchangeData for T {}
