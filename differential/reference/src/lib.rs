//! The Rust that we are compared with: `capture.rs` and `lattice.rs`, unchanged, and what they
//! import from the rest of their crate.

include!(concat!(env!("OUT_DIR"), "/modules.rs"));

/// What may travel between workers and be compared.
pub trait ExchangeData: timely::ExchangeData + Ord + std::fmt::Debug {}
impl<T: timely::ExchangeData + Ord + std::fmt::Debug> ExchangeData for T {}

/// Numbers by which data is shared out among workers. There is one, so any number would do.
pub mod hashable {
    use std::hash::{DefaultHasher, Hash, Hasher};

    pub trait Hashable {
        fn hashed(&self) -> u64;
    }
    impl<T: Hash> Hashable for T {
        fn hashed(&self) -> u64 {
            let mut hasher = DefaultHasher::new();
            self.hash(&mut hasher);
            hasher.finish()
        }
    }
}
