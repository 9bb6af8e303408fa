//! A small model of our calls, written from docs/RULES.md alone. It is a test double: it stands
//! in for our library where that is not at hand, and says of each message that the library
//! refuses whether the rules want it refused. It proves nothing, and nothing is built on it.

pub mod lists;
pub mod prompt;
pub mod held;
pub mod replay;
pub mod sender;
pub mod statements;

pub use lists::Kind;

/// The number of the question that was answered no.
pub type Refusal = u8;

/// The sizes of RULES.md.
pub mod sizes {
    pub const FRONTIER: usize = 32;
    pub const COUNTS: usize = 1_024;
    pub const SENDER_COUNTS: usize = 256;
    pub const CHANGES: usize = 2_048;
    pub const WAITING: usize = 32;
    pub const QUEUE: usize = 16;
    pub const MESSAGE_CHANGES: usize = 64;
    pub const MESSAGE_TIMES: usize = 32;
    pub const MESSAGE_COUNTS: usize = 256;
    pub const LARGEST_COUNT: usize = 1_000_000;
    pub const FILE: usize = 65_536;
}
