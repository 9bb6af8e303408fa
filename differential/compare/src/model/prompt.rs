//! "Prompt reader".

use super::lists::{add, beyond, lower_edge};
use super::statements::Statements;
use super::{sizes, Kind, Refusal};
use crate::kinds::{Change, Progress};

#[derive(Clone)]
pub struct Prompt<T> {
    statements: Statements<T>,
    reported: Vec<T>,
    heeded: Vec<T>,
    pending: Vec<Change<T>>,
    waiting_counts: Vec<(T, i64)>,
}

impl<T: Kind> Prompt<T> {
    pub fn fresh() -> Self {
        Prompt {
            statements: Statements::fresh(),
            reported: vec![T::start()],
            heeded: vec![T::start()],
            pending: Vec::new(),
            waiting_counts: Vec::new(),
        }
    }
    pub fn waiting_counts(&self) -> &[(T, i64)] {
        &self.waiting_counts
    }
    pub fn heeded(&self) -> &[T] {
        &self.heeded
    }
    pub fn sift(&mut self, changes: &[Change<T>]) -> Result<Vec<Change<T>>, Refusal> {
        if changes.len() > sizes::MESSAGE_CHANGES {
            return Err(2);
        }
        let mut after = self.clone();
        let before = after.pending.len();
        let mut other_amount = false;
        for change in changes.iter().filter(|change| beyond(&self.heeded, change.1)) {
            match after.pending.iter().find(|p| (p.0, p.1) == (change.0, change.1)) {
                Some(pending) => other_amount = other_amount || pending.2 != change.2,
                None => after.pending.push(*change),
            }
        }
        if other_amount {
            return Err(8);
        }
        if after.pending.len() > sizes::CHANGES {
            return Err(9);
        }
        let shipped = after.pending[before..].to_vec();
        for change in &shipped {
            add(&mut after.waiting_counts, change.1, -1, sizes::COUNTS)?;
        }
        *self = after;
        Ok(shipped)
    }
    pub fn note(&mut self, statement: &Progress<T>) -> Result<(), Refusal> {
        let mut after = self.statements.clone();
        after.take(statement)?;
        self.statements = after;
        Ok(())
    }
    pub fn settle(&mut self) -> Result<Vec<T>, Refusal> {
        let mut counts = self.statements.counts.clone();
        for (time, count) in &self.waiting_counts {
            add(&mut counts, *time, *count, sizes::COUNTS)?;
        }
        self.reported = lower_edge(&self.statements.frontier, &counts)?;
        self.statements.counts = counts;
        self.waiting_counts.clear();
        Ok(self.reported.clone())
    }
    pub fn heed(&mut self) {
        self.heeded = self.reported.clone();
        let heeded = &self.heeded;
        self.pending.retain(|change| beyond(heeded, change.1));
    }
}
