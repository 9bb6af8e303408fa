//! "Terms" and "Frontiers and counts".

use super::{sizes, Refusal};
use crate::kinds::{Pair, Round};
use std::fmt::Debug;

/// A kind of time.
pub trait Kind: Copy + Eq + Debug {
    fn at_or_before(self, other: Self) -> bool;
    fn joined(self, other: Self) -> Self;
    fn start() -> Self;
}

impl Kind for Round {
    fn at_or_before(self, other: Self) -> bool {
        self <= other
    }
    fn joined(self, other: Self) -> Self {
        if self <= other { other } else { self }
    }
    fn start() -> Self {
        0
    }
}

impl Kind for Pair {
    fn at_or_before(self, other: Self) -> bool {
        self.outer <= other.outer && self.inner <= other.inner
    }
    fn joined(self, other: Self) -> Self {
        Pair { outer: self.outer.joined(other.outer), inner: self.inner.joined(other.inner) }
    }
    fn start() -> Self {
        Pair { outer: 0, inner: 0 }
    }
}

pub fn beyond<T: Kind>(list: &[T], time: T) -> bool {
    list.iter().any(|x| x.at_or_before(time))
}

pub fn list_at_or_before<T: Kind>(a: &[T], b: &[T]) -> bool {
    b.iter().all(|time| beyond(a, *time))
}

pub fn equal<T: Kind>(a: &[T], b: &[T]) -> bool {
    list_at_or_before(a, b) && list_at_or_before(b, a)
}

/// Inserts a time, and asks 12 of the list that results.
pub fn insert<T: Kind>(list: &mut Vec<T>, time: T) -> Result<(), Refusal> {
    if !beyond(list, time) {
        list.retain(|x| !time.at_or_before(*x));
        list.push(time);
    }
    if list.len() <= sizes::FRONTIER { Ok(()) } else { Err(12) }
}

pub fn reduced<T: Kind>(list: &[T]) -> Result<Vec<T>, Refusal> {
    let mut result = Vec::new();
    for time in list {
        insert(&mut result, *time)?;
    }
    Ok(result)
}

pub fn join<T: Kind>(a: &[T], b: &[T]) -> Result<Vec<T>, Refusal> {
    let mut result = Vec::new();
    for x in a {
        for y in b {
            insert(&mut result, x.joined(*y))?;
        }
    }
    Ok(result)
}

/// Adds to the count of a time, and asks 11 of the table that results.
pub fn add<T: Kind>(
    counts: &mut Vec<(T, i64)>,
    time: T,
    number: i64,
    size: usize,
) -> Result<(), Refusal> {
    match counts.iter().position(|entry| entry.0 == time) {
        Some(place) => {
            counts[place].1 = counts[place].1.saturating_add(number);
            if counts[place].1 == 0 {
                counts.remove(place);
            }
        }
        None if number == 0 => {}
        None => counts.push((time, number)),
    }
    if counts.len() <= size { Ok(()) } else { Err(11) }
}

/// A frontier with the times of positive count inserted, in stored order.
pub fn lower_edge<T: Kind>(frontier: &[T], counts: &[(T, i64)]) -> Result<Vec<T>, Refusal> {
    let mut edge = frontier.to_vec();
    for (time, count) in counts {
        if *count > 0 {
            insert(&mut edge, *time)?;
        }
    }
    Ok(edge)
}
