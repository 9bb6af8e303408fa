//! What the messages of a run are made of. They are the Rust's own messages, about lessons.

use differential_dataflow::capture;
use differential_dataflow::lattice::Lattice;
use std::collections::HashSet;
use timely::order::Product;
use timely::progress::Timestamp;

/// A plain round.
pub type Round = u64;
/// A round and a week.
pub type Pair = Product<u64, u64>;

/// A kind of time that both sides know.
pub trait Time: Timestamp + Lattice + Copy + crate::model::Kind {}
impl Time for Round {}
impl Time for Pair {}

#[derive(Copy, Clone, Debug, PartialEq, Eq, PartialOrd, Ord, Hash)]
pub struct Lesson {
    pub class: u16,
    pub room: u16,
    pub period: u16,
}

pub type Change<T> = (Lesson, T, i64);
pub type Message<T> = capture::Message<Lesson, T, i64>;
pub type Progress<T> = capture::Progress<T>;
/// Changes that were published, and the frontier that was reported with them.
pub type Interval<T> = (Vec<Change<T>>, Vec<T>);

pub fn pair(round: u64, week: u64) -> Pair {
    Product::new(round, week)
}

pub fn lesson(number: u64) -> Lesson {
    Lesson {
        class: (number % 9_999) as u16 + 1,
        room: (number / 9_999 % 200) as u16 + 1,
        period: (number / 1_999_800 % 50) as u16 + 1,
    }
}

/// The same list but for order, as what is compared as a set.
pub fn sorted<X: Ord + Clone>(list: &[X]) -> Vec<X> {
    let mut list = list.to_vec();
    list.sort();
    list
}

/// A message of changes with each change once, and whether one had to go.
pub fn each_once<T: Time>(message: &Message<T>) -> (Message<T>, bool) {
    let Message::Updates(changes) = message else { return (message.clone(), false) };
    let mut seen = HashSet::new();
    let once: Vec<_> = changes.iter().filter(|change| seen.insert(**change)).cloned().collect();
    let repeats = once.len() < changes.len();
    (Message::Updates(once), repeats)
}

/// The same message with other times.
pub fn with_times<T: Time, U: Time>(message: &Message<T>, time: impl Fn(T) -> U) -> Message<U> {
    match message {
        Message::Updates(changes) => {
            Message::Updates(changes.iter().map(|(d, t, r)| (*d, time(*t), *r)).collect())
        }
        Message::Progress(statement) => Message::Progress(Progress {
            lower: statement.lower.iter().map(|t| time(*t)).collect(),
            upper: statement.upper.iter().map(|t| time(*t)).collect(),
            counts: statement.counts.iter().map(|(t, n)| (time(*t), *n)).collect(),
        }),
    }
}
