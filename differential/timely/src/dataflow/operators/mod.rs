//! Capabilities: the right to send at a time, which holds frontiers back while it is kept.

pub mod generic;

use crate::progress::Timestamp;
use crate::worker::{Held, Outputs};
use std::ops::Deref;
use std::rc::Rc;

/// Whatever a session can be opened by.
pub trait CapabilityTrait<T> {
    fn time(&self) -> &T;
}

pub struct Capability<T: Timestamp> {
    time: T,
    held: Held<T>,
}

impl<T: Timestamp> Capability<T> {
    pub(crate) fn new(time: T, held: Held<T>) -> Self {
        held.borrow_mut().update_iter([(time.clone(), 1)]);
        Capability { time, held }
    }
    pub fn time(&self) -> &T {
        &self.time
    }
}

impl<T: Timestamp> CapabilityTrait<T> for Capability<T> {
    fn time(&self) -> &T {
        &self.time
    }
}

impl<T: Timestamp> Clone for Capability<T> {
    fn clone(&self) -> Self {
        Capability::new(self.time.clone(), Rc::clone(&self.held))
    }
}

impl<T: Timestamp> Drop for Capability<T> {
    fn drop(&mut self) {
        self.held.borrow_mut().update_iter([(self.time.clone(), -1)]);
    }
}

/// The right that comes with a message, while it is looked at.
pub struct InputCapability<T: Timestamp> {
    time: T,
    outputs: Outputs<T>,
}

impl<T: Timestamp> InputCapability<T> {
    pub(crate) fn new(time: T, outputs: Outputs<T>) -> Self {
        InputCapability { time, outputs }
    }
    /// Keeps the right to send at this time from an output.
    pub fn retain(&self, output: usize) -> Capability<T> {
        Capability::new(self.time.clone(), Rc::clone(&self.outputs.borrow()[output]))
    }
}

impl<T: Timestamp> CapabilityTrait<T> for InputCapability<T> {
    fn time(&self) -> &T {
        &self.time
    }
}

/// Capabilities for one output.
pub struct CapabilitySet<T: Timestamp> {
    elements: Vec<Capability<T>>,
}

impl<T: Timestamp> CapabilitySet<T> {
    pub fn from_elem(capability: Capability<T>) -> Self {
        CapabilitySet { elements: vec![capability] }
    }
    /// Makes the set a capability for each time of the frontier, each of which has to be at or
    /// after one that the set has: a frontier that retreats is an error.
    pub fn downgrade<B, F>(&mut self, frontier: F)
    where
        B: std::borrow::Borrow<T>,
        F: IntoIterator<Item = B>,
    {
        let later = |time: &T| {
            let from = self.elements.iter().find(|x| x.time.less_equal(time));
            let from = from.expect("a frontier that does not retreat");
            Capability::new(time.clone(), Rc::clone(&from.held))
        };
        self.elements = frontier.into_iter().map(|time| later(time.borrow())).collect();
    }
}

impl<T: Timestamp> Deref for CapabilitySet<T> {
    type Target = [Capability<T>];
    fn deref(&self) -> &[Capability<T>] {
        &self.elements
    }
}
