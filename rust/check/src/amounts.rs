//! The amount that makes a total with its fee (document 02, A6): asked of both,
//! small ones held to a plain look at every amount, and what is asked at random.

use crate::coverage::Coverage;
use crate::lent::number_in_table;
use crate::numbers::Numbers;
use crate::telling::end_with;
use buntingraft::Call;
use reference::{Book, Tariff, MOST_AMOUNT, MOST_RATE};
use std::fmt;

/// What is asked for: the amount of which, with its fee by this flat part and
/// rate, there is this total.
#[derive(Clone, Copy)]
pub struct Asked {
    /// The flat part.
    pub flat: u64,
    /// The rate.
    pub rate: u64,
    /// The total.
    pub total: u64,
}

/// What is answered: the amount, if there is one, or the number of a refusal.
pub type Found = Result<Option<u64>, u32>;

/// How many small totals, and how many of any size, are asked for at random.
const SMALL: usize = 20_000;
const ANY: usize = 400_000;

/// Asks for amounts that a seed draws.
pub fn check(seed: u64, coverage: &mut Coverage) {
    let mut numbers = Numbers::of(seed.rotate_left(8), 0);
    for _ in 0..SMALL {
        let asked = small(&mut numbers);
        let found = asked.found(coverage);
        let looked = Ok(asked.by_looking());
        assert_eq!(found, looked, "{asked}: every amount was looked at");
    }
    for _ in 0..ANY {
        let _ = any(&mut numbers).found(coverage);
    }
}

impl Asked {
    /// What archive and reference both answer, or the difference.
    pub fn compared(self) -> Result<Found, String> {
        let Asked { flat, rate, total } = self;
        let archive = match buntingraft::amount_for(flat, rate, total) {
            Ok(amount) => Ok(amount.map(|amount| amount.0)),
            Err(refusal) => Err(number_in_table(Call::AmountFor, refusal)?),
        };
        let reference = reference::amount_for(flat, rate, total);
        if archive != reference {
            return Err(format!("archive {archive:?}, reference {reference:?}"));
        }
        Ok(archive)
    }

    /// What both answer. A difference ends the program.
    pub fn found(self, coverage: &mut Coverage) -> Found {
        match self.compared() {
            Ok(found) => {
                coverage.note_amount(&found);
                found
            }
            Err(difference) => end_with(&format!("{self} -> ?\n{difference}")),
        }
    }

    /// The one amount that makes the total, by looking at every amount up to it: no
    /// fee is below zero. (Of a small total, so that no fee is near the cap.)
    fn by_looking(self) -> Option<u64> {
        let Asked { flat, rate, total } = self;
        let makes_it = |amount: &u64| amount + flat + amount * rate / 10_000 == total;
        let all: Vec<u64> = (1..=total).filter(makes_it).collect();
        assert!(all.len() <= 1, "{self}: {all:?}");
        all.first().copied()
    }
}

impl fmt::Display for Asked {
    fn fmt(&self, f: &mut fmt::Formatter<'_>) -> fmt::Result {
        let Asked { flat, rate, total } = self;
        write!(f, "amount for {total}, flat part {flat}, rate {rate}")
    }
}

/// An amount with its fee.
pub fn total_of(tariff: Tariff, amount: u64) -> u64 {
    amount + tariff.fee_of(amount).fee
}

/// An order of this book, if it has one, drawn at random: its total by its
/// shipment's tariff is asked for, and its own amount must be found.
pub fn of_an_order(book: &Book, numbers: &mut Numbers) -> Option<(Asked, u64)> {
    let count = book.shipments.len();
    let shipment = book.shipments.get(numbers.below(count.max(1)))?;
    let row = &shipment.rows[numbers.below(shipment.rows.len())];
    let Tariff { flat, rate } = shipment.tariff;
    let total = row.amount + row.fee.fee;
    Some((Asked { flat, rate, total }, row.amount))
}

/// A small total, with a small flat part and any rate.
fn small(numbers: &mut Numbers) -> Asked {
    Asked {
        flat: numbers.any() % 20,
        rate: numbers.any() % (MOST_RATE + 1),
        total: numbers.any() % 500,
    }
}

/// A total of any size: of an amount by some tariff, or beside it, or any number;
/// now and then with a flat part or a rate out of range.
fn any(numbers: &mut Numbers) -> Asked {
    let tariff = Tariff {
        flat: some_up_to(MOST_AMOUNT, numbers),
        rate: some_up_to(MOST_RATE, numbers),
    };
    let amount = some_up_to(MOST_AMOUNT + 1, numbers);
    let total = match numbers.below(8) {
        0 => numbers.any() >> numbers.below(64),
        1 => numbers.any() % (2 * MOST_AMOUNT + 2),
        2 => total_of(tariff, amount) + 1,
        3 => total_of(tariff, amount).saturating_sub(1),
        _ => total_of(tariff, amount),
    };
    let Tariff { flat, rate } = tariff;
    Asked {
        flat: perhaps_above(flat, MOST_AMOUNT, numbers),
        rate: perhaps_above(rate, MOST_RATE, numbers),
        total,
    }
}

/// A number up to this one, of any size: small, large, or nearly this one.
fn some_up_to(most: u64, numbers: &mut Numbers) -> u64 {
    let any = numbers.any() % (most + 1);
    match numbers.below(4) {
        0 => any >> numbers.below(30),
        1 => most - (any >> numbers.below(30)),
        _ => any,
    }
}

/// A number, or once in sixteen times one that is above the most that it may be.
fn perhaps_above(number: u64, most: u64, numbers: &mut Numbers) -> u64 {
    if numbers.one_in(16) {
        return numbers.pick(&[most + 1, most + 2, 1 << 32, 1 << 63, u64::MAX]);
    }
    number
}
