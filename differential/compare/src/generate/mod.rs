//! Logs to compare on: short ones exhaustively, random ones, some around each limit, and damage.

pub mod damage;
pub mod limits;
pub mod random;
pub mod school;
pub mod words;

pub use random::Random;

use crate::kinds::{pair, Pair};
use timely::PartialOrder;

/// Weeks by number: 0, then those from 2000 on.
pub fn week(number: u64) -> u64 {
    match number {
        0 => 0,
        n => (2000 + (n - 1) / 52) * 100 + (n - 1) % 52 + 1,
    }
}

/// A time by the number of its round and of its week.
pub fn at(round: u64, number: u64) -> Pair {
    pair(round, week(number))
}

pub fn beyond(list: &[Pair], time: &Pair) -> bool {
    list.iter().any(|x| x.less_equal(time))
}

/// So many times of which no two are ordered.
pub fn apart(times: u64, from: u64) -> Vec<Pair> {
    (0..times).map(|i| at(from + i, times - i)).collect()
}
