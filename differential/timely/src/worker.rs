//! One worker with one dataflow. An operator runs when the driver says so, and is then told the
//! frontier of each of its inputs: what may still come there, from capabilities that are held
//! and messages that lie in between. No stream leads back, so a frontier is found by walking up.

use crate::dataflow::operators::CapabilitySet;
use crate::dataflow::{Queue, Readers, Scope, Stream};
use crate::progress::frontier::MutableAntichain;
use crate::progress::{Antichain, Timestamp};
use crate::scheduling::{Activator, Requests, Shared, SyncActivator};
use std::any::Any;
use std::cell::RefCell;
use std::collections::VecDeque;
use std::rc::Rc;
use std::sync::Arc;

/// How many capabilities there are for an output of an operator, by time.
pub(crate) type Held<T> = Rc<RefCell<MutableAntichain<T>>>;
/// The same for all outputs of one operator.
pub(crate) type Outputs<T> = Rc<RefCell<Vec<Held<T>>>>;
/// What an operator does when it runs; it answers whether it has more to do.
pub(crate) type Body<T> = Box<dyn FnMut(&[MutableAntichain<T>]) -> bool>;

/// Messages under way to an input, of whatever content.
pub(crate) trait UnderWay<T> {
    fn times(&self, into: &mut Antichain<T>);
    fn as_any(&self) -> &dyn Any;
}

impl<T: Timestamp, C: 'static> UnderWay<T> for RefCell<VecDeque<(T, C)>> {
    fn times(&self, into: &mut Antichain<T>) {
        into.extend(self.borrow().iter().map(|message| message.0.clone()));
    }
    fn as_any(&self) -> &dyn Any {
        self
    }
}

pub(crate) struct Input<T> {
    pub(crate) queue: Rc<dyn UnderWay<T>>,
    /// The operator and the output that this input reads from.
    pub(crate) from: (usize, usize),
}

pub(crate) struct Operator<T> {
    pub(crate) inputs: Vec<Input<T>>,
    pub(crate) outputs: Outputs<T>,
    pub(crate) body: Option<Body<T>>,
    /// The frontier of each input, as the operator was last told.
    frontiers: Vec<MutableAntichain<T>>,
}

pub struct Worker<T> {
    operators: RefCell<Vec<Operator<T>>>,
    requests: Shared,
    /// Where frontiers are found.
    scratch: RefCell<Antichain<T>>,
}

impl<T: Timestamp> Worker<T> {
    pub fn new() -> Self {
        let (operators, scratch) = (RefCell::new(Vec::new()), RefCell::new(Antichain::new()));
        Worker { operators, requests: Arc::default(), scratch }
    }
    pub fn scope(&self) -> Scope<'_, T> {
        Scope::new(self)
    }
    /// Runs an operator once, by its place in the order in which they were built.
    pub fn run(&self, operator: usize) -> bool {
        let mut frontiers = std::mem::take(&mut self.operators.borrow_mut()[operator].frontiers);
        for (input, frontier) in frontiers.iter_mut().enumerate() {
            self.find_frontier(operator, input, frontier);
        }
        // Taken out while it runs: it may drop capabilities, which are counted here.
        let body = self.operators.borrow_mut()[operator].body.take();
        let mut body = body.expect("an operator with a body");
        let more = body(&frontiers);
        let operator = &mut self.operators.borrow_mut()[operator];
        (operator.body, operator.frontiers) = (Some(body), frontiers);
        more
    }
    /// Brings what an operator knows of an input's frontier up to date.
    fn find_frontier(&self, operator: usize, input: usize, known: &mut MutableAntichain<T>) {
        let mut found = self.scratch.borrow_mut();
        found.clear();
        self.before_input(operator, input, &mut found);
        if known.frontier() != found.borrow() {
            *known = MutableAntichain::new();
            known.update_iter(found.iter().map(|time| (time.clone(), 1)));
        }
    }
    /// What operators asked for since this was last called.
    pub fn requests(&self) -> Requests {
        std::mem::take(&mut *self.requests.lock().unwrap())
    }
    /// What lies before an input of an operator, which has to be of this type.
    pub fn under_way<C: Clone + 'static>(&self, operator: usize, input: usize) -> Vec<C> {
        let operators = self.operators.borrow();
        let queue = operators[operator].inputs[input].queue.as_any();
        let queue: &RefCell<VecDeque<(T, C)>> = queue.downcast_ref().expect("what the input takes");
        let contents = queue.borrow().iter().map(|message| message.1.clone()).collect();
        contents
    }
    pub fn sync_activator_for(&self, address: Vec<usize>) -> SyncActivator {
        SyncActivator::new(address, Arc::clone(&self.requests))
    }
    pub(crate) fn activator_for(&self, address: Rc<[usize]>) -> Activator {
        Activator::new(address, Arc::clone(&self.requests))
    }
    pub(crate) fn reserve(&self) -> (usize, Outputs<T>) {
        let outputs: Outputs<T> = Rc::default();
        let (inputs, frontiers) = (Vec::new(), Vec::new());
        let operator = Operator { inputs, outputs: Rc::clone(&outputs), body: None, frontiers };
        self.operators.borrow_mut().push(operator);
        (self.operators.borrow().len() - 1, outputs)
    }
    pub(crate) fn add_input(&self, operator: usize, input: Input<T>) {
        let operator = &mut self.operators.borrow_mut()[operator];
        operator.inputs.push(input);
        operator.frontiers.push(MutableAntichain::new());
    }
    pub(crate) fn set_body(&self, operator: usize, body: Body<T>) {
        self.operators.borrow_mut()[operator].body = Some(body);
    }
    /// Inserts the times at which something may still come to an input.
    fn before_input(&self, operator: usize, input: usize, times: &mut Antichain<T>) {
        let operators = self.operators.borrow();
        let input = &operators[operator].inputs[input];
        input.queue.times(times);
        let (from, output) = input.from;
        let held = &operators[from].outputs.borrow()[output];
        times.extend(held.borrow().frontier().iter().cloned());
        for input in 0..operators[from].inputs.len() {
            self.before_input(from, input, times);
        }
    }
    /// A stream that the driver fills, and the handle to fill it by.
    pub fn feed<C: Clone + 'static>(&self) -> (Feed<T, C>, Stream<'_, T, C>) {
        let mut builder = crate::dataflow::operators::generic::builder_rc::OperatorBuilder::new(
            "Feed".to_string(),
            self.scope(),
        );
        let (output, stream) = builder.new_output::<C>();
        let capability = builder.first_capabilities().remove(0);
        let feed = Feed { capabilities: CapabilitySet::from_elem(capability), readers: output.readers };
        (feed, stream)
    }
}

impl<T: Timestamp> Default for Worker<T> {
    fn default() -> Self {
        Self::new()
    }
}

/// A stream's source in the driver's hands: it sends what it is given, and its frontier is where
/// the driver puts it.
pub struct Feed<T: Timestamp, C> {
    capabilities: CapabilitySet<T>,
    readers: Readers<T, C>,
}

impl<T: Timestamp, C: Clone> Feed<T, C> {
    /// Sends at the first time of the frontier, as MESSAGES does; false where there is none.
    pub fn give(&mut self, content: C) -> bool {
        let Some(capability) = self.capabilities.first() else { return false };
        for queue in self.readers.borrow().iter() {
            queue.borrow_mut().push_back((capability.time().clone(), content.clone()));
        }
        true
    }
    pub fn advance(&mut self, frontier: &[T]) {
        self.capabilities.downgrade(frontier);
    }
}

/// What came out of a stream since this was last called.
pub fn taken<T, C>(queue: &Queue<T, C>) -> Vec<C> {
    queue.borrow_mut().drain(..).map(|message| message.1).collect()
}
