//! Scopes and streams.

pub mod channels;
pub mod operators;

use crate::progress::Timestamp;
use crate::scheduling::Activator;
use crate::worker::Worker;
use std::cell::RefCell;
use std::collections::VecDeque;
use std::rc::Rc;

/// Messages on their way to one reader, each with the time that it was sent at.
pub type Queue<T, C> = Rc<RefCell<VecDeque<(T, C)>>>;
/// The readers of one stream.
pub(crate) type Readers<T, C> = Rc<RefCell<Vec<Queue<T, C>>>>;

/// The dataflow of a worker.
pub struct Scope<'a, T> {
    worker: &'a Worker<T>,
}

impl<T> Clone for Scope<'_, T> {
    fn clone(&self) -> Self {
        *self
    }
}
impl<T> Copy for Scope<'_, T> {}

impl<'a, T: Timestamp> Scope<'a, T> {
    pub(crate) fn new(worker: &'a Worker<T>) -> Self {
        Scope { worker }
    }
    pub fn worker(&self) -> &'a Worker<T> {
        self.worker
    }
    pub fn index(&self) -> usize {
        0
    }
    pub fn peers(&self) -> usize {
        1
    }
    pub fn activator_for(&self, address: Rc<[usize]>) -> Activator {
        self.worker.activator_for(address)
    }
}

/// What leaves one output of an operator.
pub struct Stream<'a, T, C> {
    scope: Scope<'a, T>,
    pub(crate) from: (usize, usize),
    readers: Readers<T, C>,
}

impl<T, C> Clone for Stream<'_, T, C> {
    fn clone(&self) -> Self {
        Stream { scope: self.scope, from: self.from, readers: Rc::clone(&self.readers) }
    }
}

impl<'a, T: Timestamp, C> Stream<'a, T, C> {
    pub(crate) fn new(scope: Scope<'a, T>, from: (usize, usize), readers: Readers<T, C>) -> Self {
        Stream { scope, from, readers }
    }
    pub fn scope(&self) -> Scope<'a, T> {
        self.scope
    }
    /// A queue that gets all that leaves this output from now on.
    pub fn queue(&self) -> Queue<T, C> {
        let queue = Queue::<T, C>::default();
        self.readers.borrow_mut().push(Rc::clone(&queue));
        queue
    }
}
