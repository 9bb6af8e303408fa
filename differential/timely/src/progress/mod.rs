//! Times, frontiers and counts.

pub mod change_batch;
pub mod frontier;

pub use change_batch::ChangeBatch;
pub use frontier::Antichain;

use crate::order::{PartialOrder, Product};
use std::fmt::Debug;
use std::hash::Hash;

/// A kind of time: its order has a least time.
pub trait Timestamp: Clone + Eq + Ord + Hash + Debug + PartialOrder + 'static {
    fn minimum() -> Self;
}

macro_rules! least_is_zero {
    ($($kind:ty,)*) => ($(
        impl Timestamp for $kind {
            fn minimum() -> Self { 0 }
        }
    )*)
}

least_is_zero!(usize, u128, u64, u32, u16, u8,);

impl<A: Timestamp, B: Timestamp> Timestamp for Product<A, B> {
    fn minimum() -> Self {
        Product::new(A::minimum(), B::minimum())
    }
}
