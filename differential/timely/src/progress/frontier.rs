//! Frontiers: lists of times of which no two are ordered.

use super::ChangeBatch;
use crate::order::PartialOrder;
use std::ops::Deref;

/// A frontier that owns its times.
#[derive(Clone, Debug)]
pub struct Antichain<T> {
    elements: Vec<T>,
}

impl<T> Antichain<T> {
    pub fn new() -> Self {
        Antichain { elements: Vec::new() }
    }
    pub fn from_elem(element: T) -> Self {
        Antichain { elements: vec![element] }
    }
    pub fn clear(&mut self) {
        self.elements.clear();
    }
    pub fn elements(&self) -> &[T] {
        &self.elements
    }
    pub fn borrow(&self) -> AntichainRef<'_, T> {
        AntichainRef::new(&self.elements)
    }
}

impl<T: PartialOrder> Antichain<T> {
    /// Does nothing for a time that is beyond the frontier; else takes out what is at or after
    /// the time, and puts it last.
    pub fn insert(&mut self, element: T) -> bool {
        if self.less_equal(&element) {
            return false;
        }
        self.elements.retain(|x| !element.less_equal(x));
        self.elements.push(element);
        true
    }
    pub fn extend<I: IntoIterator<Item = T>>(&mut self, elements: I) -> bool {
        let mut added = false;
        for element in elements {
            added = self.insert(element) || added;
        }
        added
    }
    /// Whether the time is beyond the frontier.
    #[inline]
    pub fn less_equal(&self, time: &T) -> bool {
        self.elements.iter().any(|x| x.less_equal(time))
    }
    #[inline]
    pub fn less_than(&self, time: &T) -> bool {
        self.elements.iter().any(|x| x.less_than(time))
    }
}

impl<T: PartialOrder> From<Vec<T>> for Antichain<T> {
    fn from(times: Vec<T>) -> Self {
        let mut result = Antichain::new();
        result.extend(times);
        result
    }
}

impl<T> Default for Antichain<T> {
    fn default() -> Self {
        Self::new()
    }
}

impl<T> Deref for Antichain<T> {
    type Target = [T];
    fn deref(&self) -> &[T] {
        &self.elements
    }
}

impl<T: PartialEq> PartialEq for Antichain<T> {
    fn eq(&self, other: &Self) -> bool {
        self.borrow() == other.borrow()
    }
}
impl<T: Eq> Eq for Antichain<T> {}

impl<T: PartialOrder> PartialOrder for Antichain<T> {
    fn less_equal(&self, other: &Self) -> bool {
        PartialOrder::less_equal(&self.borrow(), &other.borrow())
    }
}

/// A frontier, or any list of times, that is lent.
#[derive(Debug)]
pub struct AntichainRef<'a, T> {
    frontier: &'a [T],
}

impl<T> Clone for AntichainRef<'_, T> {
    fn clone(&self) -> Self {
        *self
    }
}
impl<T> Copy for AntichainRef<'_, T> {}

impl<'a, T> AntichainRef<'a, T> {
    pub fn new(frontier: &'a [T]) -> Self {
        AntichainRef { frontier }
    }
}

impl<T: Clone> AntichainRef<'_, T> {
    pub fn to_owned(&self) -> Antichain<T> {
        Antichain { elements: self.frontier.to_vec() }
    }
}

impl<T: PartialOrder> AntichainRef<'_, T> {
    /// Whether the time is beyond the list.
    #[inline]
    pub fn less_equal(&self, time: &T) -> bool {
        self.frontier.iter().any(|x| x.less_equal(time))
    }
    #[inline]
    pub fn less_than(&self, time: &T) -> bool {
        self.frontier.iter().any(|x| x.less_than(time))
    }
}

impl<T> Deref for AntichainRef<'_, T> {
    type Target = [T];
    fn deref(&self) -> &[T] {
        self.frontier
    }
}

/// Equal when they hold the same times, in whatever order.
impl<T: PartialEq> PartialEq for AntichainRef<'_, T> {
    fn eq(&self, other: &Self) -> bool {
        self.len() == other.len()
            && (self.frontier == other.frontier || self.iter().all(|x| other.contains(x)))
    }
}
impl<T: Eq> Eq for AntichainRef<'_, T> {}

/// At or before another list when every element of that one is beyond this one.
impl<T: PartialOrder> PartialOrder for AntichainRef<'_, T> {
    fn less_equal(&self, other: &Self) -> bool {
        other.iter().all(|time| AntichainRef::less_equal(self, time))
    }
}

impl<'a, T> IntoIterator for &'a AntichainRef<'a, T> {
    type Item = &'a T;
    type IntoIter = std::slice::Iter<'a, T>;
    fn into_iter(self) -> Self::IntoIter {
        self.frontier.iter()
    }
}

/// Counts of times, and the frontier of those whose count is positive.
#[derive(Clone, Debug)]
pub struct MutableAntichain<T> {
    counts: ChangeBatch<T>,
    frontier: Vec<T>,
    /// How the frontier moved in the last update: 1 for a time that came, -1 for one that went.
    moved: ChangeBatch<T>,
}

impl<T> MutableAntichain<T> {
    pub fn new() -> Self {
        MutableAntichain {
            counts: ChangeBatch::new(),
            frontier: Vec::new(),
            moved: ChangeBatch::new(),
        }
    }
    pub fn frontier(&self) -> AntichainRef<'_, T> {
        AntichainRef::new(&self.frontier)
    }
    pub fn is_empty(&self) -> bool {
        self.frontier.is_empty()
    }
}

impl<T: PartialOrder> MutableAntichain<T> {
    #[inline]
    pub fn less_equal(&self, time: &T) -> bool {
        self.frontier().less_equal(time)
    }
    #[inline]
    pub fn less_than(&self, time: &T) -> bool {
        self.frontier().less_than(time)
    }
}

impl<T: PartialOrder + Ord + Clone> MutableAntichain<T> {
    /// Adds to the counts, and tells how the frontier moved.
    pub fn update_iter<I>(&mut self, additions: I) -> std::vec::Drain<'_, (T, i64)>
    where
        I: IntoIterator<Item = (T, i64)>,
    {
        let mut may_move = false;
        for (time, amount) in additions {
            may_move = may_move || self.touches(&time, amount);
            self.counts.update(time, amount);
        }
        if may_move {
            self.find_frontier();
        }
        self.moved.drain()
    }
    /// Whether an addition can move the frontier: not strictly beyond it, nor by lowering a
    /// count that was not positive.
    fn touches(&self, time: &T, amount: i64) -> bool {
        let strictly_beyond = self.less_than(time);
        let lowers_behind = amount < 0 && !self.less_equal(time);
        !(strictly_beyond || lowers_behind)
    }
    fn find_frontier(&mut self) {
        self.moved.extend(self.frontier.drain(..).map(|time| (time, -1)));
        // Counts come sorted, and a time before another sorts before it: none has to go again.
        for (time, count) in self.counts.iter() {
            if *count > 0 && !self.frontier.iter().any(|x| x.less_equal(time)) {
                self.frontier.push(time.clone());
            }
        }
        self.moved.extend(self.frontier.iter().map(|time| (time.clone(), 1)));
    }
}

impl<T> Default for MutableAntichain<T> {
    fn default() -> Self {
        Self::new()
    }
}
