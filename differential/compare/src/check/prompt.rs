//! Our prompt reader beside the Rust's operators.

use super::Finding;
use crate::kinds::{sorted, Change, Message, Progress, Time};
use crate::model::{self, Refusal};
use crate::rust;
use crate::smaller::{smaller_changes, smaller_statements, Smaller};
use crate::tally::Part;

/// One call on a prompt reader.
#[derive(Clone, Debug)]
pub enum Call<T> {
    Sift(Vec<Change<T>>),
    Note(Progress<T>),
    Settle,
    Heed,
}

impl<T: Time> Call<T> {
    /// The call that gives a reader this message.
    pub fn of(message: &Message<T>) -> Self {
        match message {
            Message::Updates(changes) => Call::Sift(changes.clone()),
            Message::Progress(statement) => Call::Note(statement.clone()),
        }
    }
}

impl<T: Time> Smaller for Call<T> {
    fn smaller(&self) -> Vec<Self> {
        match self {
            Call::Sift(changes) => smaller_changes(changes).into_iter().map(Call::Sift).collect(),
            Call::Note(s) => smaller_statements(s).into_iter().map(Call::Note).collect(),
            Call::Settle | Call::Heed => Vec::new(),
        }
    }
}

/// Our calls. The model stands in until the library has them.
pub trait Reader<T> {
    fn sift(&mut self, changes: &[Change<T>]) -> Result<Vec<Change<T>>, Refusal>;
    fn note(&mut self, statement: &Progress<T>) -> Result<(), Refusal>;
    fn settle(&mut self) -> Result<Vec<T>, Refusal>;
    fn heed(&mut self) -> Result<(), Refusal>;
    fn waiting_counts(&self) -> Vec<(T, i64)>;
}

impl<T: Time> Reader<T> for model::prompt::Prompt<T> {
    fn sift(&mut self, changes: &[Change<T>]) -> Result<Vec<Change<T>>, Refusal> {
        self.sift(changes)
    }
    fn note(&mut self, statement: &Progress<T>) -> Result<(), Refusal> {
        self.note(statement)
    }
    fn settle(&mut self) -> Result<Vec<T>, Refusal> {
        self.settle()
    }
    fn heed(&mut self) -> Result<(), Refusal> {
        self.heed();
        Ok(())
    }
    fn waiting_counts(&self) -> Vec<(T, i64)> {
        self.waiting_counts().to_vec()
    }
}

pub fn calls<T: Time>(
    ours: &mut dyn Reader<T>,
    calls: &[Call<T>],
    part: &mut Part,
) -> Result<(), Finding> {
    let mut rust = rust::prompt::Prompt::fresh();
    part.runs += 1;
    for (at, call) in calls.iter().enumerate() {
        part.messages += 1;
        match one(ours, &mut rust, call, part) {
            Ok(Ok(())) => {}
            Ok(Err(number)) => part.refused[number as usize] += 1,
            Err(finding) => return Err(Finding { at, ..finding }),
        }
        let (waiting, theirs) = (sorted(&ours.waiting_counts()), sorted(&rust.waiting_counts()));
        if waiting != theirs {
            return Err(Finding::new(at, ("waiting counts", waiting), theirs));
        }
    }
    Ok(())
}

/// Makes one call on ours and, where it is accepted, on the Rust.
fn one<T: Time>(
    ours: &mut dyn Reader<T>,
    rust: &mut rust::prompt::Prompt<T>,
    call: &Call<T>,
    part: &mut Part,
) -> Result<Result<(), Refusal>, Finding> {
    match call {
        Call::Sift(changes) => match ours.sift(changes) {
            Err(number) => return Ok(Err(number)),
            Ok(shipped) => {
                let theirs = rust.sift(changes);
                part.unread += u64::from(theirs.is_none());
                part.changes_out += shipped.len() as u64;
                same(&shipped, &theirs.unwrap_or_default())?;
            }
        },
        Call::Note(statement) => match ours.note(statement) {
            Err(number) => return Ok(Err(number)),
            Ok(()) => part.unread += u64::from(!rust.note(statement)),
        },
        Call::Settle => match ours.settle() {
            Err(number) => return Ok(Err(number)),
            Ok(frontier) => {
                part.frontiers += 1;
                same(&frontier, &rust.settle())?;
            }
        },
        Call::Heed => match ours.heed() {
            Err(number) => return Ok(Err(number)),
            Ok(()) => rust.heed(),
        },
    }
    Ok(Ok(()))
}

fn same<X: Ord + Clone + std::fmt::Debug>(ours: &[X], theirs: &[X]) -> Result<(), Finding> {
    let (ours, theirs) = (sorted(ours), sorted(theirs));
    if ours == theirs { Ok(()) } else { Err(Finding::new(0, ours, theirs)) }
}
