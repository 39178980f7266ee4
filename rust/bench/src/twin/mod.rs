//! The twin: the same book on the same lent bytes (docs/LAYOUT.md), as a Rust
//! engineer writes it by hand, without proofs, `unsafe` or heap. Arguments and
//! answers have the types of the bindings.

mod calendar;
mod calls;
mod faults;
mod header;
mod intake;
mod layout;
mod lines;
mod name;
mod records;
mod report;
mod returns;
mod sheet;
mod sound;
mod store;
mod text;

pub use report::write_rkf;

/// An order's amount and a fee are at most this.
const ORDER_CAP: u64 = 999_999_999;

/// A rate is at most this, and what a fee's division leaves is below it.
const RATE_CAP: u64 = 10_000;

/// A sum of transfers is at most this.
const SUM_CAP: u64 = 9_999_999_999_999;

/// The number of the first question that was answered no.
pub type Refusal = u64;

/// A book in lent memory. Where `SOUND` is false its calls leave out the
/// soundness pass, and memory that is no sound book may make them panic.
pub struct Book<'m, const SOUND: bool = true>(&'m mut [u8]);

impl<'m, const SOUND: bool> Book<'m, SOUND> {
    /// The book that the memory is said to hold.
    pub fn lent(memory: &'m mut [u8]) -> Self {
        Book(memory)
    }
}
