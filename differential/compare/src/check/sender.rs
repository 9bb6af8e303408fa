//! Our sender beside the Rust's `sink`.

use super::Finding;
use crate::kinds::{sorted, Change, Message, Progress, Time};
use crate::model::sender::{pump, Sender};
use crate::model::Refusal;
use crate::rust;
use crate::smaller::{shorter, smaller_changes, Smaller};
use crate::tally::Part;

/// One call on a sender. A pump's post has room for so many messages and then says wait.
#[derive(Clone, Debug)]
pub enum Call<T> {
    Record(Vec<Change<T>>),
    PumpChanges(usize),
    /// The frontier moves, and the statements are pumped at once, as in the Rust.
    Close(Vec<T>, usize),
    Finish(usize),
    PumpStatements(usize),
    /// From now on both posts say whether they are done.
    Done(bool),
}

impl<T: Time> Smaller for Call<T> {
    fn smaller(&self) -> Vec<Self> {
        match self {
            Call::Record(changes) => smaller_changes(changes).into_iter().map(Call::Record).collect(),
            Call::Close(list, room) => {
                shorter(list).into_iter().map(|list| Call::Close(list, *room)).collect()
            }
            _ => Vec::new(),
        }
    }
}

impl<T: Time> Call<T> {
    /// The same call with other times.
    pub fn with_times<U: Time>(&self, time: impl Fn(T) -> U) -> Call<U> {
        match self {
            Call::Record(changes) => {
                Call::Record(changes.iter().map(|(d, t, r)| (*d, time(*t), *r)).collect())
            }
            Call::PumpChanges(room) => Call::PumpChanges(*room),
            Call::Close(list, room) => Call::Close(list.iter().map(|t| time(*t)).collect(), *room),
            Call::Finish(room) => Call::Finish(*room),
            Call::PumpStatements(room) => Call::PumpStatements(*room),
            Call::Done(done) => Call::Done(*done),
        }
    }
}

/// Both senders and what our posts took. Our side is the model until the library has the calls.
struct Both<T: Time> {
    ours: Sender<T>,
    rust: rust::sender::Sender<T>,
    changes: Vec<Message<T>>,
    /// So many of the first changes taken are known to be the same.
    compared: usize,
    statements: Vec<Message<T>>,
    finished: bool,
    done: bool,
}

pub fn calls<T: Time>(calls: &[Call<T>], part: &mut Part) -> Result<(), Finding> {
    let mut both = Both {
        ours: Sender::fresh(),
        rust: rust::sender::Sender::fresh(),
        changes: Vec::new(),
        compared: 0,
        statements: Vec::new(),
        finished: false,
        done: true,
    };
    part.runs += 1;
    for (at, call) in calls.iter().enumerate() {
        part.messages += 1;
        match both.call(call, part) {
            Ok(Ok(())) => {}
            Ok(Err(number)) => part.refused[number as usize] += 1,
            Err(finding) => return Err(Finding { at, ..finding }),
        }
    }
    part.changes_out += both.changes.len() as u64;
    part.frontiers += both.statements.len() as u64;
    Ok(())
}

impl<T: Time> Both<T> {
    /// Makes one call on ours and, where it is accepted, on the Rust.
    fn call(&mut self, call: &Call<T>, part: &mut Part) -> Result<Result<(), Refusal>, Finding> {
        // A finished sender knows only the pumps.
        match call {
            Call::Record(_) | Call::Close(..) | Call::Finish(_) if self.finished => Ok(Ok(())),
            Call::Record(changes) => {
                let answer = self.ours.record(changes);
                if answer.is_ok() {
                    self.rust.record(changes);
                }
                Ok(answer)
            }
            Call::PumpChanges(room) => self.pump_changes(*room).map(Ok),
            Call::Close(list, room) => match self.ours.close(list) {
                Ok(()) => self.pump_statements(*room, Some(list), part).map(Ok),
                refused => Ok(refused),
            },
            Call::Finish(room) => match self.ours.finish() {
                Ok(()) => {
                    self.finished = true;
                    self.pump_statements(*room, Some(&[]), part).map(Ok)
                }
                refused => Ok(refused),
            },
            Call::PumpStatements(room) => self.pump_statements(*room, None, part).map(Ok),
            Call::Done(done) => {
                self.done = *done;
                self.rust.changes.borrow_mut().done = *done;
                self.rust.statements.borrow_mut().done = *done;
                Ok(Ok(()))
            }
        }
    }
    fn pump_changes(&mut self, room: usize) -> Result<(), Finding> {
        let (work_remains, waits) = pump(&mut self.ours.changes, &mut self.changes, room, self.done);
        let ours = (work_remains, waits.then_some(rust::sender::WAIT));
        let theirs = self.rust.pump_changes(room);
        if ours != theirs {
            return Err(Finding::new(0, ours, theirs));
        }
        let taken = &self.rust.changes.borrow().taken;
        // What an earlier pump moved was compared then.
        let from = self.compared.min(taken.len());
        self.compared = self.changes.len();
        same(&self.changes[from..], &taken[from..])
    }
    /// The Rust offers statements only when its frontier moves. Until then it may lag behind
    /// what our post took, by statements that were put off, and by nothing else.
    fn pump_statements(
        &mut self,
        room: usize,
        moved_to: Option<&[T]>,
        part: &mut Part,
    ) -> Result<(), Finding> {
        let before = self.statements.len();
        let queue = &mut self.ours.statements;
        let (work_remains, waits) = pump(queue, &mut self.statements, room, self.done);
        let ours = (work_remains, waits.then_some(rust::sender::WAIT));
        // The Rust may have to catch up with what it put off before it comes to the new one.
        let behind = before - self.rust.statements.borrow().taken.len();
        let theirs = match moved_to {
            Some(list) => self.rust.close(list, behind + room),
            None => self.rust.pump_statements(behind + room),
        };
        let taken = &self.rust.statements.borrow().taken;
        if taken.len() < self.statements.len() && moved_to.is_none() {
            part.put_off += 1;
            return same(&self.statements[..taken.len()], taken);
        }
        same(&self.statements, taken)?;
        // What it put off and is not offered again, it does not answer a wait for.
        let offered = moved_to.is_some() || self.ours.statements.is_empty();
        if ours == theirs || !offered {
            Ok(())
        } else {
            Err(Finding::new(0, ours, theirs))
        }
    }
}

/// The same messages in the same order, their lists as sets.
fn same<T: Time>(ours: &[Message<T>], theirs: &[Message<T>]) -> Result<(), Finding> {
    let plain = |message: &Message<T>| match message {
        Message::Updates(changes) => Message::Updates(changes.clone()),
        Message::Progress(s) => Message::Progress(Progress {
            lower: sorted(&s.lower),
            upper: sorted(&s.upper),
            counts: sorted(&s.counts),
        }),
    };
    let differs = |(a, b): (&Message<T>, &Message<T>)| plain(a) != plain(b);
    if ours.len() == theirs.len() && !ours.iter().zip(theirs).any(differs) {
        return Ok(());
    }
    Err(Finding::new(0, ours, theirs))
}
