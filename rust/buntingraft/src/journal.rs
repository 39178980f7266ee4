//! A journal of calls, and why one is not replayed.

use crate::money::{Money, Route};
use crate::sys::Profile;
use std::error::Error;
use std::fmt;

/// A journal: a list of calls to be made one after the other in an empty book
/// ([`Book::replay`](crate::Book::replay)). Its bytes may be stored, and are
/// what include/buntingraft.h and docs/LAYOUT.md say.
///
/// ```
/// use buntingraft::{Book, Journal};
///
/// let mut journal = Journal::new();
/// journal.transfer(b"EPEZZS1-201007-A-0-K", 17_550);
/// journal.close(b"ZS1");
///
/// let mut book = Book::empty();
/// let replies = book.replay(&journal)?;
/// assert_eq!((replies[0].status, replies[0].first), (2, 13)); // no such shipment
/// assert_eq!((replies[1].status, replies[1].first), (2, 13));
/// # Ok::<(), buntingraft::NotReplayed>(())
/// ```
#[derive(Clone, Debug, PartialEq, Eq)]
pub struct Journal {
    bytes: Vec<u8>,
}

/// The bytes before the first entry: how many entries there are.
const COUNT: usize = 8;

impl Default for Journal {
    fn default() -> Self {
        Journal {
            bytes: vec![0; COUNT],
        }
    }
}

impl Journal {
    /// A journal without calls.
    pub fn new() -> Self {
        Journal::default()
    }

    /// Its bytes.
    pub fn bytes(&self) -> &[u8] {
        &self.bytes
    }

    /// How many calls it has.
    pub fn calls(&self) -> u64 {
        let mut count = [0; COUNT];
        count.copy_from_slice(&self.bytes[..COUNT]);
        u64::from_le_bytes(count)
    }

    /// Enters an intake.
    pub fn intake(&mut self, profile: &Profile, name: &[u8], file: &[u8]) {
        let numbers = [
            &[profile.today][..],
            &profile.flat,
            &[profile.fields],
            &profile.rates,
        ];
        self.enter(0, &numbers.concat(), &[name, file]);
    }

    /// Enters a transfer.
    pub fn transfer(&mut self, title: &[u8], amount: u64) {
        self.enter(1, &[amount], &[title]);
    }

    /// Enters a go-ahead.
    pub fn go_ahead(&mut self, id: &[u8]) {
        self.enter(2, &[], &[id]);
    }

    /// Enters a pairing.
    pub fn pair(&mut self, id: &[u8]) {
        self.enter(3, &[], &[id]);
    }

    /// Enters a close.
    pub fn close(&mut self, id: &[u8]) {
        self.enter(4, &[], &[id]);
    }

    /// Enters an order posted.
    pub fn post(&mut self, id: &[u8], order: u64) {
        self.enter(5, &[order], &[id]);
    }

    /// Enters an order paid out.
    pub fn pay(&mut self, id: &[u8], order: u64) {
        self.enter(6, &[order], &[id]);
    }

    /// Enters an order marked Undelivered.
    pub fn mark_undelivered(&mut self, id: &[u8], order: u64) {
        self.enter(7, &[order], &[id]);
    }

    /// Enters an order withdrawn.
    pub fn withdraw(&mut self, id: &[u8], order: u64) {
        self.enter(8, &[order], &[id]);
    }

    /// Enters a return.
    pub fn give_back(&mut self, id: &[u8], route: Route, money: Money) {
        self.enter(9, &[route.number(), money.number()], &[id]);
    }

    /// Enters a call: its numbers and its texts by place.
    fn enter(&mut self, call: u8, numbers: &[u64], texts: &[&[u8]]) {
        self.bytes
            .extend([call, numbers.len() as u8, texts.len() as u8]);
        let lengths = texts.iter().map(|text| text.len() as u64);
        for number in numbers.iter().copied().chain(lengths) {
            self.bytes.extend(number.to_le_bytes());
        }
        for text in texts {
            self.bytes.extend(*text);
        }
        let calls = self.calls() + 1;
        self.bytes[..COUNT].copy_from_slice(&calls.to_le_bytes());
    }
}

/// Why a journal was not replayed: no call was made, and the book and the table
/// are as they were, byte for byte.
#[derive(Clone, Copy, Debug, PartialEq, Eq, Hash)]
pub enum NotReplayed {
    /// The journal is not whole entries, as many as it says.
    NotWhole,
    /// The table has fewer places than the journal has entries.
    TooFewPlaces,
    /// The memory holds no empty book.
    NotEmpty,
}

impl NotReplayed {
    /// The reason with a number of the replay.
    pub(crate) fn of(number: u64) -> NotReplayed {
        match number {
            1 => NotReplayed::NotWhole,
            2 => NotReplayed::TooFewPlaces,
            _ => NotReplayed::NotEmpty,
        }
    }
}

impl fmt::Display for NotReplayed {
    fn fmt(&self, f: &mut fmt::Formatter<'_>) -> fmt::Result {
        f.write_str(match self {
            NotReplayed::NotWhole => "not replayed: the journal is not whole entries",
            NotReplayed::TooFewPlaces => "not replayed: too few places for the replies",
            NotReplayed::NotEmpty => "not replayed: the memory holds no empty book",
        })
    }
}

impl Error for NotReplayed {}

#[cfg(test)]
mod tests {
    use super::*;

    #[test]
    fn an_intake_has_twelve_numbers_the_rates_behind_the_others() {
        let profile = Profile {
            today: 1,
            flat: [2, 3, 4, 5, 6],
            fields: 7,
            rates: [8, 9, 10, 11, 12],
        };
        let mut journal = Journal::new();
        journal.intake(&profile, b"", b"");
        let entry = &journal.bytes()[COUNT..];
        assert_eq!(entry[..3], [0, 12, 2]);
        for (place, number) in (1..=12).enumerate() {
            assert_eq!(entry[3 + 8 * place..][..8], u64::to_le_bytes(number));
        }
        assert_eq!(entry.len(), 3 + 8 * (12 + 2));
    }
}
