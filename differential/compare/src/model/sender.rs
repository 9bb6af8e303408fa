//! "Sender", and the pumps of "Posts and pumps".

use super::lists::{add, beyond, list_at_or_before, reduced};
use super::{sizes, Kind, Refusal};
use crate::kinds::{Change, Message, Progress};
use std::collections::VecDeque;

pub struct Sender<T> {
    pub frontier: Vec<T>,
    counts: Vec<(T, i64)>,
    pub changes: VecDeque<Message<T>>,
    pub statements: VecDeque<Message<T>>,
}

impl<T: Kind> Sender<T> {
    pub fn fresh() -> Self {
        Sender {
            frontier: vec![T::start()],
            counts: Vec::new(),
            changes: VecDeque::new(),
            statements: VecDeque::new(),
        }
    }
    pub fn record(&mut self, changes: &[Change<T>]) -> Result<(), Refusal> {
        if changes.len() > sizes::MESSAGE_CHANGES {
            return Err(2);
        }
        if changes.iter().any(|change| !beyond(&self.frontier, change.1)) {
            return Err(3);
        }
        let mut counts = self.counts.clone();
        let mut many = Ok(());
        for change in changes {
            many = add(&mut counts, change.1, 1, sizes::SENDER_COUNTS).and(many);
        }
        let large = |change: &Change<T>| {
            counts.iter().any(|(time, n)| *time == change.1 && *n > sizes::LARGEST_COUNT as i64)
        };
        if changes.iter().any(large) {
            return Err(5);
        }
        many?;
        if self.changes.len() >= sizes::QUEUE {
            return Err(13);
        }
        self.counts = counts;
        self.changes.push_back(Message::Updates(changes.to_vec()));
        Ok(())
    }
    pub fn close(&mut self, list: &[T]) -> Result<(), Refusal> {
        let advances = list_at_or_before(&self.frontier, list)
            && !list_at_or_before(list, &self.frontier);
        if list.is_empty() || !advances {
            return Err(4);
        }
        self.state(list)
    }
    pub fn finish(&mut self) -> Result<(), Refusal> {
        self.state(&[])
    }
    /// Queues the statement from the frontier to the list, and makes that the frontier.
    fn state(&mut self, list: &[T]) -> Result<(), Refusal> {
        let (kept, stated): (Vec<_>, Vec<_>) =
            self.counts.iter().partition(|(time, _)| beyond(list, *time));
        if stated.iter().any(|(_, count)| *count > sizes::LARGEST_COUNT as i64) {
            return Err(5);
        }
        let upper = reduced(list)?;
        if self.statements.len() >= sizes::QUEUE {
            return Err(13);
        }
        let counts = stated.iter().map(|(time, count)| (*time, (*count).max(0) as usize)).collect();
        let lower = std::mem::replace(&mut self.frontier, upper.clone());
        self.statements.push_back(Message::Progress(Progress { lower, upper, counts }));
        self.counts = kept;
        Ok(())
    }
}

/// A post that takes so many messages more; the pump moves as many to it as it takes, and
/// answers whether work remains and whether the post said wait.
pub fn pump<T: Kind>(
    queue: &mut VecDeque<Message<T>>,
    taken: &mut Vec<Message<T>>,
    room: usize,
    done: bool,
) -> (bool, bool) {
    let moved = queue.len().min(room);
    taken.extend(queue.drain(..moved));
    (!queue.is_empty() || !done, !queue.is_empty())
}
