//! The comparisons. Each gives the first difference that is on no list, if there is one.

pub mod held;
pub mod prompt;
pub mod sender;

/// A difference that is on no list: where, what we gave, and what the Rust gave, or the rules want.
#[derive(Debug)]
pub struct Finding {
    pub at: usize,
    pub ours: String,
    pub wanted: String,
}

impl Finding {
    pub fn new(at: usize, ours: impl std::fmt::Debug, wanted: impl std::fmt::Debug) -> Self {
        Finding { at, ours: format!("{ours:?}"), wanted: format!("{wanted:?}") }
    }
}

/// A panic on either side is a difference too.
pub fn caught(run: impl FnOnce() -> Result<(), Finding>) -> Result<(), Finding> {
    let panicked = |_| Err(Finding::new(0, "ours or the Rust panicked", "an answer"));
    std::panic::catch_unwind(std::panic::AssertUnwindSafe(run)).unwrap_or_else(panicked)
}
