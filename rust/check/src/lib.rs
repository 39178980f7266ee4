//! The checking program: the archive, through its bindings, and the reference
//! are given the same calls, and everything that a caller can see of the one is
//! held to the other.
//!
//! - [`twin`], [`lent`], [`layout`]: lent memory and the reference's book side by side.
//! - [`sheet`], [`lendings`]: the balance sheet of both, and what it is lent.
//! - [`output`]: what both write into a lent output.
//! - [`report`], [`reading`], [`reports`], [`values`]: the report files of both,
//!   how they are read back, and which are asked for with what values.
//! - [`amounts`]: the amounts that make a total with their fees.
//! - [`extra`], [`judged`]: records cut around their extra fields, and what of that was
//!   reached.
//! - [`storing`]: stored books with bytes changed, and what they are loaded into.
//! - [`journal`], [`replay`]: a list of calls as bytes, and its replay.
//! - [`run`], [`ledger`]: a list of calls under way, and demand 3 over it.
//! - [`directed`], [`memory`], [`lists`]: the cases, memory and lists tried.
//! - [`coverage`], [`reported`]: what of it all was reached.

pub mod amounts;
pub mod archive;
pub mod breaks;
pub mod calls;
pub mod coverage;
pub mod directed;
pub mod draft;
pub mod extra;
pub mod generator;
pub mod journal;
pub mod judged;
pub mod layout;
pub mod ledger;
pub mod lendings;
pub mod lent;
pub mod lists;
pub mod memory;
pub mod naming;
pub mod numbers;
pub mod orders;
pub mod output;
pub mod probe;
pub mod reading;
pub mod replay;
pub mod report;
pub mod reported;
pub mod reports;
pub mod run;
pub mod sheet;
pub mod stages;
pub mod storing;
pub mod telling;
pub mod twin;
pub mod values;

use coverage::Coverage;

const _: () = assert!(layout::LENGTH == buntingraft::BOOK_BYTES);
const _: () = assert!(layout::LENGTH == reference::BOOK_BYTES);
const _: () = assert!(reference::MOST_SHIPMENTS == buntingraft::MOST_SHIPMENTS);

/// Runs the directed cases, the memory, so many random lists and the amounts and
/// records that the seed draws, prints what they covered, and says whether the directed cases and the memory alone
/// reached every answer that there is. A difference ends the program.
pub fn check(seed: u64, lists: u64) -> bool {
    let mut coverage = Coverage::default();
    println!("seed {seed}, {lists} random lists");
    directed::check(&mut coverage);
    memory::check(seed, &mut coverage);
    let missing = coverage.missing();
    amounts::check(seed, &mut coverage);
    extra::check(seed, &mut coverage);
    lists::check(seed, 0..lists, &mut coverage);
    print!("{coverage}");
    println!("no difference");
    if !missing.is_empty() {
        println!("never reached before the lists: {}", missing.join(", "));
    }
    missing.is_empty()
}
