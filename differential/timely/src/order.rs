//! Partial orders, and pairs ordered part by part.

use std::time::Duration;

pub trait PartialOrder: PartialEq {
    /// At or before.
    fn less_equal(&self, other: &Self) -> bool;
    /// At or before, and not the same.
    fn less_than(&self, other: &Self) -> bool {
        self.less_equal(other) && self != other
    }
}

macro_rules! ordered_as_numbers {
    ($($kind:ty,)*) => ($(
        impl PartialOrder for $kind {
            #[inline]
            fn less_equal(&self, other: &Self) -> bool { self <= other }
            #[inline]
            fn less_than(&self, other: &Self) -> bool { self < other }
        }
    )*)
}

ordered_as_numbers!(usize, u128, u64, u32, u16, u8, isize, i128, i64, i32, i16, i8, (), Duration,);

/// Tuples are ordered by their first part, then by their second. `lattice.rs` needs them; no
/// time of ours is one.
impl<A: PartialOrder, B: PartialOrder> PartialOrder for (A, B) {
    fn less_equal(&self, other: &Self) -> bool {
        self.0.less_than(&other.0) || (self.0 == other.0 && self.1.less_equal(&other.1))
    }
}

/// A pair of times, at or before another when both parts are.
#[derive(Copy, Clone, Debug, Default, Hash, PartialEq, Eq, PartialOrd, Ord)]
pub struct Product<A, B> {
    pub outer: A,
    pub inner: B,
}

impl<A, B> Product<A, B> {
    pub fn new(outer: A, inner: B) -> Self {
        Product { outer, inner }
    }
}

impl<A: PartialOrder, B: PartialOrder> PartialOrder for Product<A, B> {
    #[inline]
    fn less_equal(&self, other: &Self) -> bool {
        self.outer.less_equal(&other.outer) && self.inner.less_equal(&other.inner)
    }
}
