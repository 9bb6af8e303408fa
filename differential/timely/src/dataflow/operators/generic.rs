//! Operators by hand: inputs, outputs, and a body that the worker runs.

use super::{CapabilityTrait, InputCapability};
use crate::dataflow::{Queue, Readers};
use crate::progress::Timestamp;
use crate::worker::Outputs;
use std::rc::Rc;

/// One input of an operator.
pub struct InputHandle<T: Timestamp, C> {
    queue: Queue<T, C>,
    outputs: Outputs<T>,
}

impl<T: Timestamp, C> InputHandle<T, C> {
    /// Hands over every message that has come.
    pub fn for_each<F: FnMut(InputCapability<T>, &mut C)>(&mut self, mut logic: F) {
        loop {
            let Some((time, mut content)) = self.queue.borrow_mut().pop_front() else { return };
            logic(InputCapability::new(time, Rc::clone(&self.outputs)), &mut content);
        }
    }
}

/// One output of an operator.
pub struct Output<T, C> {
    pub(crate) readers: Readers<T, C>,
}

pub struct OutputBuilder<T, C> {
    output: Output<T, C>,
}

impl<T, C> From<Output<T, C>> for OutputBuilder<T, C> {
    fn from(output: Output<T, C>) -> Self {
        OutputBuilder { output }
    }
}

impl<T, C> OutputBuilder<T, C> {
    pub fn activate(&mut self) -> OutputHandle<'_, T, C> {
        OutputHandle { output: &mut self.output }
    }
}

pub struct OutputHandle<'a, T, C> {
    output: &'a mut Output<T, C>,
}

impl<T: Clone, D: Clone> OutputHandle<'_, T, Vec<D>> {
    pub fn session<K: CapabilityTrait<T>>(&mut self, capability: &K) -> Session<'_, T, D> {
        Session { time: capability.time().clone(), buffer: Vec::new(), output: self.output }
    }
}

/// Sends at one time. What is given one by one leaves together, at the end.
pub struct Session<'a, T: Clone, D: Clone> {
    time: T,
    buffer: Vec<D>,
    output: &'a mut Output<T, Vec<D>>,
}

impl<T: Clone, D: Clone> Session<'_, T, D> {
    pub fn give(&mut self, item: D) {
        self.buffer.push(item);
    }
    pub fn give_iterator<I: Iterator<Item = D>>(&mut self, items: I) {
        self.buffer.extend(items);
    }
    pub fn give_container(&mut self, items: &mut Vec<D>) {
        self.flush();
        self.send(std::mem::take(items));
    }
    fn flush(&mut self) {
        let items = std::mem::take(&mut self.buffer);
        self.send(items);
    }
    fn send(&mut self, items: Vec<D>) {
        let readers = self.output.readers.borrow();
        if let (false, Some((last, others))) = (items.is_empty(), readers.split_last()) {
            for queue in others {
                queue.borrow_mut().push_back((self.time.clone(), items.clone()));
            }
            last.borrow_mut().push_back((self.time.clone(), items));
        }
    }
}

impl<T: Clone, D: Clone> Drop for Session<'_, T, D> {
    fn drop(&mut self) {
        self.flush();
    }
}

pub mod builder_rc {
    use super::{InputHandle, Output};
    use crate::dataflow::channels::pact::ParallelizationContract;
    use crate::dataflow::operators::Capability;
    use crate::dataflow::{Readers, Scope, Stream};
    use crate::progress::frontier::MutableAntichain;
    use crate::progress::Timestamp;
    use crate::worker::{Held, Input, Outputs, UnderWay};
    use std::rc::Rc;

    pub struct OperatorInfo {
        pub address: Rc<[usize]>,
    }

    pub struct OperatorBuilder<'a, T: Timestamp> {
        scope: Scope<'a, T>,
        place: usize,
        outputs: Outputs<T>,
    }

    impl<'a, T: Timestamp> OperatorBuilder<'a, T> {
        pub fn new(_name: String, scope: Scope<'a, T>) -> Self {
            let (place, outputs) = scope.worker().reserve();
            OperatorBuilder { scope, place, outputs }
        }
        pub fn operator_info(&self) -> OperatorInfo {
            OperatorInfo { address: Rc::from([self.place]) }
        }
        pub fn new_input<C, P>(&mut self, stream: Stream<'a, T, C>, _pact: P) -> InputHandle<T, C>
        where
            C: 'static,
            P: ParallelizationContract<C>,
        {
            let queue = stream.queue();
            let under_way = Rc::clone(&queue) as Rc<dyn UnderWay<T>>;
            self.scope.worker().add_input(self.place, Input { queue: under_way, from: stream.from });
            InputHandle { queue, outputs: Rc::clone(&self.outputs) }
        }
        pub fn new_output<C>(&mut self) -> (Output<T, C>, Stream<'a, T, C>) {
            let readers: Readers<T, C> = Rc::default();
            let port = self.outputs.borrow().len();
            self.outputs.borrow_mut().push(Held::<T>::default());
            let stream = Stream::new(self.scope, (self.place, port), Rc::clone(&readers));
            (Output { readers }, stream)
        }
        /// At first an operator may send at every time, from each of its outputs.
        pub(crate) fn first_capabilities(&self) -> Vec<Capability<T>> {
            let outputs = self.outputs.borrow();
            outputs.iter().map(|held| Capability::new(T::minimum(), Rc::clone(held))).collect()
        }
        pub fn build<B, L>(self, constructor: B)
        where
            B: FnOnce(Vec<Capability<T>>) -> L,
            L: FnMut(&[MutableAntichain<T>]) + 'static,
        {
            let mut logic = constructor(self.first_capabilities());
            let body = move |frontiers: &[MutableAntichain<T>]| {
                logic(frontiers);
                false
            };
            self.scope.worker().set_body(self.place, Box::new(body));
        }
        pub fn build_reschedule<B, L>(self, constructor: B)
        where
            B: FnOnce(Vec<Capability<T>>) -> L,
            L: FnMut(&[MutableAntichain<T>]) -> bool + 'static,
        {
            let logic = constructor(self.first_capabilities());
            self.scope.worker().set_body(self.place, Box::new(logic));
        }
    }
}
