//! How an operator asks to run again. The driver decides whether it does.

use std::collections::BTreeSet;
use std::rc::Rc;
use std::sync::{Arc, Mutex};
use std::time::Duration;

/// What operators asked for since the driver last looked.
#[derive(Default, Debug)]
pub struct Requests {
    /// Operators that want to run.
    pub ready: BTreeSet<usize>,
    /// Operators that want to run after a wait.
    pub waits: Vec<(usize, Duration)>,
}

pub(crate) type Shared = Arc<Mutex<Requests>>;

/// Asks for one operator, from its own thread.
pub struct Activator {
    address: Rc<[usize]>,
    requests: Shared,
}

impl Activator {
    pub(crate) fn new(address: Rc<[usize]>, requests: Shared) -> Self {
        Activator { address, requests }
    }
    pub fn activate(&self) {
        self.requests.lock().unwrap().ready.insert(self.address[0]);
    }
    pub fn activate_after(&self, wait: Duration) {
        self.requests.lock().unwrap().waits.push((self.address[0], wait));
    }
}

/// Asks for one operator, from any thread.
pub struct SyncActivator {
    address: Vec<usize>,
    requests: Shared,
}

/// The worker is gone. That does not come about here: requests are kept by whoever holds them.
#[derive(Debug)]
pub struct SyncActivationError;

impl SyncActivator {
    pub(crate) fn new(address: Vec<usize>, requests: Shared) -> Self {
        SyncActivator { address, requests }
    }
    pub fn activate(&self) -> Result<(), SyncActivationError> {
        self.requests.lock().unwrap().ready.insert(self.address[0]);
        Ok(())
    }
}
