//! What was compared in a run, and the differences that were expected.

use std::fmt;

/// Why a message that we refuse is no bug: the question, in the words of RULES.md.
const QUESTIONS: [(usize, &str); 12] = [
    (2, "a message over its sizes"),
    (3, "a record behind the sender's frontier"),
    (4, "a close that does not advance"),
    (5, "a count over 1,000,000"),
    (6, "a counted time outside its statement"),
    (7, "a time counted twice in one statement"),
    (8, "another amount (the Rust panics)"),
    (9, "more than 2,048 changes"),
    (10, "more than 32 statements waiting"),
    (11, "more counts than their table has"),
    (12, "more than 32 times in a frontier"),
    (13, "a queue of 16 messages"),
];

#[derive(Default)]
pub struct Part {
    pub runs: u64,
    pub messages: u64,
    pub changes_out: u64,
    pub frontiers: u64,
    pub refused: [u64; 16],
    /// Messages that had a change twice, of which the Rust was given one.
    pub twice: u64,
    /// Messages that the Rust did not read, since its frontier was empty.
    pub unread: u64,
    /// Pumps after which the Rust had put off a statement that our post had.
    pub put_off: u64,
}

#[derive(Default)]
pub struct Tally {
    pub held: Part,
    pub prompt: Part,
    pub sender: Part,
    /// Damaged files that are malformed, and those that are well formed still.
    pub malformed: u64,
    pub well_formed: u64,
    /// Files or listings over 65,536 bytes, of which only the answer is compared.
    pub too_long: u64,
}

impl Tally {
    pub fn logs(&self) -> u64 {
        self.held.runs + self.prompt.runs + self.sender.runs + self.malformed + self.too_long
    }
}

impl fmt::Display for Part {
    fn fmt(&self, f: &mut fmt::Formatter) -> fmt::Result {
        writeln!(f, "  logs {}, messages or calls {}", self.runs, self.messages)?;
        writeln!(f, "  changes given out {}, frontiers told {}", self.changes_out, self.frontiers)?;
        for (question, why) in QUESTIONS {
            if self.refused[question] > 0 {
                writeln!(f, "  expected: refused by {question}, {why}: {}", self.refused[question])?;
            }
        }
        let others = [
            (self.twice, "a change twice in one message, given to the Rust once"),
            (self.unread, "after the empty frontier"),
            (self.put_off, "a put-off statement"),
        ];
        for (number, why) in others.iter().filter(|(number, _)| *number > 0) {
            writeln!(f, "  expected: {why}: {number}")?;
        }
        Ok(())
    }
}

impl fmt::Display for Tally {
    fn fmt(&self, f: &mut fmt::Formatter) -> fmt::Result {
        write!(f, "held reader\n{}", self.held)?;
        writeln!(f, "  damaged files: malformed {}, else compared {}", self.malformed, self.well_formed)?;
        writeln!(f, "  expected: refused by 15, file or listing too long: {}", self.too_long)?;
        write!(f, "prompt reader\n{}", self.prompt)?;
        write!(f, "sender\n{}", self.sender)?;
        writeln!(f, "logs in all: {}", self.logs())
    }
}
