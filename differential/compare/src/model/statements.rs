//! "Statements", as both sorts of reader take them.

use super::lists::{add, beyond, join, list_at_or_before};
use super::{sizes, Kind, Refusal};
use crate::kinds::Progress;

#[derive(Clone)]
pub struct Statements<T> {
    pub frontier: Vec<T>,
    pub counts: Vec<(T, i64)>,
    pub waiting: Vec<Progress<T>>,
}

impl<T: Kind> Statements<T> {
    pub fn fresh() -> Self {
        Statements { frontier: vec![T::start()], counts: Vec::new(), waiting: Vec::new() }
    }
    /// Takes a statement. Where it is refused, what is left here means nothing.
    pub fn take(&mut self, statement: &Progress<T>) -> Result<(), Refusal> {
        asked(statement)?;
        if list_at_or_before(&statement.upper, &self.frontier) {
            return Ok(());
        }
        if !list_at_or_before(&statement.lower, &self.frontier) {
            if self.waiting.len() >= sizes::WAITING {
                return Err(10);
            }
            self.waiting.push(statement.clone());
            return Ok(());
        }
        self.act(statement)?;
        while let Some(place) = self.first_that_can_act() {
            let next = self.waiting.remove(place);
            self.act(&next)?;
        }
        Ok(())
    }
    fn first_that_can_act(&self) -> Option<usize> {
        self.waiting.iter().position(|s| list_at_or_before(&s.lower, &self.frontier))
    }
    fn act(&mut self, statement: &Progress<T>) -> Result<(), Refusal> {
        for (time, count) in &statement.counts {
            if beyond(&self.frontier, *time) {
                add(&mut self.counts, *time, *count as i64, sizes::COUNTS)?;
            }
        }
        self.frontier = join(&statement.upper, &self.frontier)?;
        let frontier = &self.frontier;
        self.waiting.retain(|s| !list_at_or_before(&s.upper, frontier));
        Ok(())
    }
}

/// Questions 2, 5, 6 and 7, each of the whole statement.
fn asked<T: Kind>(statement: &Progress<T>) -> Result<(), Refusal> {
    let Progress { lower, upper, counts } = statement;
    let short = lower.len() <= sizes::MESSAGE_TIMES
        && upper.len() <= sizes::MESSAGE_TIMES
        && counts.len() <= sizes::MESSAGE_COUNTS;
    let small = counts.iter().all(|(_, count)| *count <= sizes::LARGEST_COUNT);
    let inside = counts.iter().all(|(time, _)| beyond(lower, *time) && !beyond(upper, *time));
    let once = (1..counts.len()).all(|i| counts[..i].iter().all(|(time, _)| *time != counts[i].0));
    match () {
        () if !short => Err(2),
        () if !small => Err(5),
        () if !inside => Err(6),
        () if !once => Err(7),
        () => Ok(()),
    }
}
