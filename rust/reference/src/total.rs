//! "What amount makes this total?" (document 02, A6). All words quoted here are
//! document 02's.

use crate::fee::Tariff;
use crate::{MOST_AMOUNT, MOST_RATE};

/// "Given flat part, rate and total, find the order amount whose amount plus fee
/// is that total, or say none." Gives the amount, if there is one, or a question's
/// number.
pub fn amount_for(flat: u64, rate: u64, total: u64) -> Result<Option<u64>, u32> {
    // "907 comes first here, then 905 for the flat part."
    if rate > MOST_RATE {
        return Err(907);
    }
    if flat > MOST_AMOUNT {
        return Err(905);
    }
    let tariff = Tariff { flat, rate };
    let amount = first_reaching(tariff, total);
    let makes_it = amount <= MOST_AMOUNT
        // "amount plus fee is that total"
        && total_of(tariff, amount) == total
        // "A fee above the cap makes an amount unusable."
        && tariff.fee_of(amount).fee <= MOST_AMOUNT;
    Ok(makes_it.then_some(amount))
}

/// "amount plus fee"
fn total_of(tariff: Tariff, amount: u64) -> u64 {
    amount + tariff.fee_of(amount).fee
}

/// The lowest amount whose total is at least this one, or one grosz more than the
/// largest amount where there is none.
///
/// A grosz more of the amount never makes the fee less, so it makes the total more.
/// The totals of 1, 2, 3 .. therefore rise at every step: those that are too low come
/// first, and an amount of just this total can only be the one behind them. It is
/// found by halving: below `low` all are too low, from `high` on none is.
fn first_reaching(tariff: Tariff, total: u64) -> u64 {
    let (mut low, mut high) = (1, MOST_AMOUNT + 1);
    while low < high {
        let middle = (low + high) / 2;
        if total_of(tariff, middle) < total {
            low = middle + 1;
        } else {
            high = middle;
        }
    }
    low
}
