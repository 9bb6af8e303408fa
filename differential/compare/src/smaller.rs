//! The smallest log that still shows a difference.

use crate::kinds::{Change, Message, Progress, Time};

/// What can be made a little smaller, in one or more ways.
pub trait Smaller: Clone {
    fn smaller(&self) -> Vec<Self>;
}

/// The list without one of its parts: halves first, then single elements.
pub fn shorter<X: Clone>(list: &[X]) -> Vec<Vec<X>> {
    let mut result = Vec::new();
    let mut size = list.len().div_ceil(2);
    while size > 0 {
        for from in (0..list.len()).step_by(size) {
            let to = (from + size).min(list.len());
            result.push([&list[..from], &list[to..]].concat());
        }
        size = if size == 1 { 0 } else { size.div_ceil(2) };
    }
    result
}

/// The list shorter, or with the start in place of another time.
fn smaller_lists<T: Time, X: Clone>(list: &[X], time: impl Fn(&mut X) -> &mut T) -> Vec<Vec<X>> {
    let mut result = shorter(list);
    for place in 0..list.len() {
        let mut list = list.to_vec();
        if std::mem::replace(time(&mut list[place]), T::minimum()) != T::minimum() {
            result.push(list);
        }
    }
    result
}

pub fn smaller_changes<T: Time>(changes: &[Change<T>]) -> Vec<Vec<Change<T>>> {
    smaller_lists(changes, |change| &mut change.1)
}

impl<T: Time> Smaller for Message<T> {
    fn smaller(&self) -> Vec<Self> {
        match self {
            Message::Updates(changes) => {
                smaller_changes(changes).into_iter().map(Message::Updates).collect()
            }
            Message::Progress(s) => smaller_statements(s).into_iter().map(Message::Progress).collect(),
        }
    }
}

pub fn smaller_statements<T: Time>(s: &Progress<T>) -> Vec<Progress<T>> {
    let lists = |list: &[T]| smaller_lists(list, |time| time);
    let lower = lists(&s.lower).into_iter().map(|lower| Progress { lower, ..s.clone() });
    let upper = lists(&s.upper).into_iter().map(|upper| Progress { upper, ..s.clone() });
    let counts = smaller_lists(&s.counts, |count| &mut count.0);
    let counts = counts.into_iter().map(|counts| Progress { counts, ..s.clone() });
    let fewer = (0..s.counts.len()).filter(|i| s.counts[*i].1 > 1).map(|i| {
        let mut counts = s.counts.clone();
        counts[i].1 -= 1;
        Progress { counts, ..s.clone() }
    });
    lower.chain(upper).chain(counts).chain(fewer).collect()
}

/// Takes parts away for as long as the difference is still there.
pub fn smallest<X: Smaller>(mut log: Vec<X>, mut differs: impl FnMut(&[X]) -> bool) -> Vec<X> {
    loop {
        let one_smaller = (0..log.len()).flat_map(|place| {
            let (log, x) = (&log, &log[place]);
            x.smaller().into_iter().map(move |x| {
                let mut log = log.clone();
                log[place] = x;
                log
            })
        });
        match shorter(&log).into_iter().chain(one_smaller).find(|log| differs(log)) {
            Some(found) => log = found,
            None => return log,
        }
    }
}
