//! "Held reader".

use super::lists::{add, beyond, equal, lower_edge};
use super::statements::Statements;
use super::{sizes, Kind, Refusal};
use crate::kinds::{Change, Interval, Message};

#[derive(Clone)]
pub struct Held<T> {
    statements: Statements<T>,
    reported: Vec<T>,
    held: Vec<Change<T>>,
    tally: u64,
}

impl<T: Kind> Held<T> {
    pub fn fresh() -> Self {
        let (statements, reported) = (Statements::fresh(), vec![T::start()]);
        Held { statements, reported, held: Vec::new(), tally: 0 }
    }
    pub fn drops(&self) -> u64 {
        self.tally
    }
    /// Works on a copy, so that a refusal leaves this as it was.
    pub fn feed(&mut self, message: &Message<T>) -> Result<Option<Interval<T>>, Refusal> {
        let mut after = self.clone();
        match message {
            Message::Updates(changes) => after.hold(changes)?,
            Message::Progress(statement) => after.statements.take(statement)?,
        }
        let edge = lower_edge(&after.statements.frontier, &after.statements.counts)?;
        let interval = (!equal(&edge, &after.reported)).then(|| after.publish(edge));
        *self = after;
        Ok(interval)
    }
    fn hold(&mut self, changes: &[Change<T>]) -> Result<(), Refusal> {
        if changes.len() > sizes::MESSAGE_CHANGES {
            return Err(2);
        }
        let before = self.held.len();
        for change in changes {
            if beyond(&self.reported, change.1) && !self.held.contains(change) {
                self.held.push(*change);
            } else {
                self.tally = self.tally.saturating_add(1);
            }
        }
        if self.held.len() > sizes::CHANGES {
            return Err(9);
        }
        for change in &self.held[before..] {
            add(&mut self.statements.counts, change.1, -1, sizes::COUNTS)?;
        }
        Ok(())
    }
    fn publish(&mut self, edge: Vec<T>) -> Interval<T> {
        let (kept, published) = self.held.iter().partition(|change| beyond(&edge, change.1));
        self.held = kept;
        self.reported = edge.clone();
        (published, edge)
    }
}
