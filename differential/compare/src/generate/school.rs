//! Logs as a school would send them, of one sender and in order, to measure on: so many changes
//! are held while statements lag behind.

use super::at;
use crate::kinds::{lesson, Message, Pair, Progress};

/// What a log is like.
#[derive(Copy, Clone)]
pub struct School {
    /// Changes in a round, which come in one message.
    pub changes: u64,
    /// Different times in a round, and so counts in a statement.
    pub times: u64,
    /// How many rounds a statement lags behind the changes of its round.
    pub lag: u64,
    pub rounds: u64,
}

impl School {
    /// Holds about so many changes; with long statements, at as many times as the counts allow.
    pub fn holding(held: u64, long: bool) -> Self {
        let changes = (held / 8).clamp(1, 62);
        let lag = (held / changes).max(1);
        let times = if long { changes.min(1_000 / (lag + 1)) } else { 1 };
        // As many rounds as a file of 65,536 bytes has room for, also with its listing.
        let rounds = 2_200 / (changes + times);
        School { changes, times, lag, rounds: rounds.clamp(lag + 2, 400.max(lag + 2)) }
    }
    pub fn log(&self) -> Vec<Message<Pair>> {
        let mut log = Vec::new();
        for round in 0..self.rounds + self.lag {
            if round < self.rounds {
                let change = |i| (lesson(round * self.changes + i), self.time(round, i), 1);
                log.push(Message::Updates((0..self.changes).map(change).collect()));
            }
            if round >= self.lag {
                log.push(Message::Progress(self.statement(round - self.lag)));
            }
        }
        log
    }
    fn time(&self, round: u64, change: u64) -> Pair {
        at(round, change % self.times)
    }
    fn statement(&self, round: u64) -> Progress<Pair> {
        let number = |time| (0..self.changes).filter(|i| i % self.times == time).count();
        Progress {
            lower: vec![at(round, 0)],
            upper: vec![at(round + 1, 0)],
            counts: (0..self.times).map(|time| (at(round, time), number(time))).collect(),
        }
    }
}
