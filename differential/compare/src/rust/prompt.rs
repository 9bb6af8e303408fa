//! The Rust's `source::build`, its operators run as our calls want them.
//!
//! | our call | operators run |
//! |---|---|
//! | sift | MESSAGES reads the changes, UPDATES ships the new ones and sends their counts on |
//! | note | MESSAGES reads the statement |
//! | settle | PROGRESS takes in counts and statements, and sends on how the frontier moved |
//! | heed | FEEDBACK hands the frontier to MESSAGES, which gives up what is behind it; UPDATES thins out |

use crate::kinds::{Change, Lesson, Message, Progress, Time};
use differential_dataflow::capture::source;
use std::any::Any;
use std::cell::Cell;
use std::rc::Rc;
use timely::dataflow::Queue;
use timely::progress::{frontier::MutableAntichain, ChangeBatch};
use timely::worker::{taken, Worker};

const MESSAGES: usize = 0;
const UPDATES: usize = 1;
const PROGRESS: usize = 2;
const FEEDBACK: usize = 3;

pub struct Prompt<T: Time> {
    worker: Worker<T>,
    /// The source runs for as long as this is kept.
    _token: Box<dyn Any + Send + Sync>,
    slot: Rc<Cell<Option<Message<T>>>>,
    shipped: Queue<T, Vec<Change<T>>>,
    /// What FEEDBACK was told so far.
    heeded: MutableAntichain<T>,
}

impl<T: Time> Prompt<T> {
    pub fn fresh() -> Self {
        let worker = Worker::new();
        let slot: Rc<Cell<Option<Message<T>>>> = Rc::default();
        let source = Rc::clone(&slot);
        let (token, changes) = source::build::<_, _, Lesson, T, i64>(worker.scope(), |_activator| {
            std::iter::from_fn(move || source.take())
        });
        let shipped = changes.queue();
        let mut heeded = MutableAntichain::new();
        heeded.update_iter([(T::minimum(), 1)]);
        Prompt { worker, _token: token, slot, shipped, heeded }
    }
    /// Answers what was shipped, or nothing where the source is read no more.
    pub fn sift(&mut self, changes: &[Change<T>]) -> Option<Vec<Change<T>>> {
        let was_read = self.read(Message::Updates(changes.to_vec()));
        self.worker.run(UPDATES);
        was_read.then(|| taken(&self.shipped).concat())
    }
    pub fn note(&mut self, statement: &Progress<T>) -> bool {
        self.read(Message::Progress(statement.clone()))
    }
    /// Answers the frontier that PROGRESS reports.
    pub fn settle(&mut self) -> Vec<T> {
        self.worker.run(PROGRESS);
        let mut reported = self.heeded.clone();
        for moved in self.on_the_way_to_feedback() {
            reported.update_iter(moved.unstable_internal_updates().iter().cloned());
        }
        reported.frontier().to_vec()
    }
    pub fn heed(&mut self) {
        for moved in self.on_the_way_to_feedback() {
            self.heeded.update_iter(moved.unstable_internal_updates().iter().cloned());
        }
        self.worker.run(FEEDBACK);
        self.worker.run(MESSAGES);
        self.worker.run(UPDATES);
    }
    /// Settles and heeds without looking at what is reported, for measuring. What `settle`
    /// answers afterwards means nothing.
    pub fn settle_and_heed(&mut self) {
        for operator in [PROGRESS, FEEDBACK, MESSAGES, UPDATES] {
            self.worker.run(operator);
        }
    }
    /// The counts that UPDATES sent and PROGRESS has not taken in.
    pub fn waiting_counts(&self) -> Vec<(T, i64)> {
        let mut sums = ChangeBatch::new();
        let under_way: Vec<Vec<(T, i64)>> = self.worker.under_way(PROGRESS, 1);
        sums.extend(under_way.into_iter().flatten());
        sums.drain().collect()
    }
    fn on_the_way_to_feedback(&self) -> Vec<ChangeBatch<T>> {
        let under_way: Vec<Vec<(usize, ChangeBatch<T>)>> = self.worker.under_way(FEEDBACK, 0);
        under_way.into_iter().flatten().map(|(_worker, moved)| moved).collect()
    }
    /// MESSAGES reads one message, unless it has given up its source.
    fn read(&mut self, message: Message<T>) -> bool {
        self.slot.set(Some(message));
        self.worker.run(MESSAGES);
        self.slot.take().is_none()
    }
}
