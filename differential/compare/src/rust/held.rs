//! The Rust's `Iter`, one turn of its loop at a time.

use crate::kinds::{Interval, Lesson, Message, Time};
use differential_dataflow::capture::iterator::Iter;
use std::cell::Cell;
use std::rc::Rc;

/// Room for one message. `next` reads on until the frontier moves or its source ends; with one
/// message to be had, it makes one turn.
pub struct Slot<T>(Rc<Cell<Option<Message<T>>>>);

impl<T> Iterator for Slot<T> {
    type Item = Message<T>;
    fn next(&mut self) -> Option<Message<T>> {
        self.0.take()
    }
}

pub struct Held<T: Time> {
    slot: Rc<Cell<Option<Message<T>>>>,
    iter: Iter<Slot<T>, Lesson, T, i64>,
}

impl<T: Time> Held<T> {
    pub fn fresh() -> Self {
        let slot = Rc::default();
        Held { iter: Iter::new(Slot(Rc::clone(&slot))), slot }
    }
    pub fn feed(&mut self, message: Message<T>) -> Option<Interval<T>> {
        self.slot.set(Some(message));
        let (changes, frontier) = self.iter.next()?;
        Some((changes, frontier.to_vec()))
    }
}
