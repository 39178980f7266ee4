//! A call as a value, to be made on either book.

use crate::twin;
use buntingraft::{Accepted, Amount, Fee, Money, Pairing, Profile, Returned, Route};

/// A call with its arguments.
#[derive(Clone, Copy, Debug)]
pub enum Call<'a> {
    /// A profile, a name and a file.
    Intake(&'a Profile, &'a [u8], &'a [u8]),
    /// A title and an amount.
    Transfer(&'a [u8], u64),
    /// An identifier.
    GoAhead(&'a [u8]),
    /// An identifier.
    Pair(&'a [u8]),
    /// An identifier.
    Close(&'a [u8]),
    /// An identifier and an order's number.
    Post(&'a [u8], u64),
    /// An identifier and an order's number.
    Pay(&'a [u8], u64),
    /// An identifier and an order's number.
    MarkUndelivered(&'a [u8], u64),
    /// An identifier and an order's number.
    Withdraw(&'a [u8], u64),
    /// An identifier, a route and a money.
    GiveBack(&'a [u8], Route, Money),
}

/// What a call answered.
#[derive(Clone, Copy, Debug, PartialEq, Eq)]
pub enum Answer {
    /// The number of the first question answered no.
    Refused(u64),
    /// Only that it was done.
    Done,
    /// An intake's.
    Accepted(Accepted),
    /// A pairing's.
    Pairing(Pairing),
    /// The fee earned by a post.
    Earned(Fee),
    /// The amount of a payout.
    Paid(Amount),
    /// A return's.
    Returned(Returned),
}

/// One of those that are measured against each other.
pub trait Rival {
    /// Makes a call on the book that the memory holds.
    fn make(memory: &mut [u8], call: &Call) -> Answer;
}

/// The proved archive, through its bindings.
pub struct Archive;

/// The twin, with its soundness pass or without.
pub struct Twin<const SOUND: bool>;

/// The answer that archive and twin both give to a call on a book.
pub fn agreed(book: &[u8], call: &Call) -> Answer {
    let archive = Archive::make(&mut book.to_vec(), call);
    let twin = Twin::<true>::make(&mut book.to_vec(), call);
    assert_eq!(archive, twin);
    archive
}

/// The answer of a book, of either type, to a call.
macro_rules! answer {
    ($book:expr, $call:expr, $number:expr) => {
        match *$call {
            Call::Intake(profile, name, file) => {
                $book.intake(profile, name, file).map(Answer::Accepted)
            }
            Call::Transfer(title, amount) => $book.transfer(title, amount).map(|()| Answer::Done),
            Call::GoAhead(id) => $book.go_ahead(id).map(|()| Answer::Done),
            Call::Pair(id) => $book.pair(id).map(Answer::Pairing),
            Call::Close(id) => $book.close(id).map(|()| Answer::Done),
            Call::Post(id, order) => $book.post(id, order).map(Answer::Earned),
            Call::Pay(id, order) => $book.pay(id, order).map(Answer::Paid),
            Call::MarkUndelivered(id, order) => {
                $book.mark_undelivered(id, order).map(|()| Answer::Done)
            }
            Call::Withdraw(id, order) => $book.withdraw(id, order).map(|()| Answer::Done),
            Call::GiveBack(id, route, money) => {
                $book.give_back(id, route, money).map(Answer::Returned)
            }
        }
        .unwrap_or_else(|refusal| Answer::Refused($number(refusal)))
    };
}

impl Rival for Archive {
    fn make(memory: &mut [u8], call: &Call) -> Answer {
        let mut book = buntingraft::Book::lent(memory);
        answer!(book, call, |refusal: buntingraft::Refusal| refusal.number())
    }
}

impl<const SOUND: bool> Rival for Twin<SOUND> {
    fn make(memory: &mut [u8], call: &Call) -> Answer {
        let mut book = twin::Book::<SOUND>::lent(memory);
        answer!(book, call, |number| number)
    }
}
