//! The Rust, called message by message.

pub mod held;
pub mod prompt;
pub mod sender;
