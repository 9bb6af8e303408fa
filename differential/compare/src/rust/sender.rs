//! The Rust's `sink::build`: what it sends to its two posts.

use crate::kinds::{Change, Message, Time};
use differential_dataflow::capture::{sink, Writer};
use std::cell::RefCell;
use std::rc::Rc;
use std::time::Duration;
use timely::worker::{Feed, Worker};

const UPDATES_WRITER: usize = 1;
const PROGRESS_WRITER: usize = 2;

/// A post that takes so many messages more and then says wait.
pub struct Post<T> {
    pub taken: Vec<Message<T>>,
    pub room: usize,
    pub done: bool,
}

/// The wait that such a post answers.
pub const WAIT: Duration = Duration::from_millis(100);

impl<T: Time> Writer<Message<T>> for Post<T> {
    fn poll(&mut self, message: &Message<T>) -> Option<Duration> {
        if self.room == 0 {
            return Some(WAIT);
        }
        self.room -= 1;
        self.taken.push(message.clone());
        None
    }
    fn done(&self) -> bool {
        self.done
    }
}

/// What a pump answers: whether work remains, and the wait.
pub type Pumped = (bool, Option<Duration>);

pub struct Sender<T: Time> {
    worker: Worker<T>,
    feed: Feed<T, Vec<Change<T>>>,
    pub changes: Rc<RefCell<Post<T>>>,
    pub statements: Rc<RefCell<Post<T>>>,
}

impl<T: Time> Sender<T> {
    pub fn fresh() -> Self {
        let worker = Worker::new();
        let (feed, stream) = worker.feed();
        let post = || Rc::new(RefCell::new(Post { taken: Vec::new(), room: 0, done: true }));
        let (changes, statements) = (post(), post());
        sink::build(stream, 0, Rc::downgrade(&changes), Rc::downgrade(&statements));
        Sender { worker, feed, changes, statements }
    }
    /// The operators take the changes and their counts in while the posts say wait. A count that
    /// is still under way would hold back the frontier that the second one sees.
    pub fn record(&mut self, changes: &[Change<T>]) {
        self.feed.give(changes.to_vec());
        self.worker.run(UPDATES_WRITER);
        self.worker.run(PROGRESS_WRITER);
        self.worker.requests();
    }
    pub fn pump_changes(&mut self, room: usize) -> Pumped {
        self.changes.borrow_mut().room = room;
        let pumped = self.pumped(UPDATES_WRITER);
        self.changes.borrow_mut().room = 0;
        pumped
    }
    /// The frontier becomes this list. The operator makes its statement and offers it to a post
    /// with so much room, in one run.
    pub fn close(&mut self, list: &[T], room: usize) -> Pumped {
        self.feed.advance(list);
        self.pump_statements(room)
    }
    pub fn pump_statements(&mut self, room: usize) -> Pumped {
        self.statements.borrow_mut().room = room;
        let pumped = self.pumped(PROGRESS_WRITER);
        self.statements.borrow_mut().room = 0;
        pumped
    }
    /// Both posts are dropped while the sender goes on.
    pub fn lose_posts(&mut self) {
        let post = || Rc::new(RefCell::new(Post { taken: Vec::new(), room: 0, done: true }));
        (self.changes, self.statements) = (post(), post());
    }
    pub fn run_changes(&mut self) -> Pumped {
        self.pumped(UPDATES_WRITER)
    }
    fn pumped(&mut self, operator: usize) -> Pumped {
        let work_remains = self.worker.run(operator);
        let wait = self.worker.requests().waits.first().map(|(_operator, wait)| *wait);
        (work_remains, wait)
    }
}
