//! What the benchmarks measure the archive against, and what they feed to both.

pub mod calls;
pub mod files;
pub mod reports;
pub mod sheets;
pub mod stores;
pub mod twin;
