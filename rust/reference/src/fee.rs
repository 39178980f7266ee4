//! "Fees in ten-thousandths of the amount" (document 02, A5). All words quoted
//! here are document 02's.

use crate::{MOST_AMOUNT, MOST_RATE};

/// "A new contract sets the fee as a flat part plus a rate, 0 to 10,000, in
/// ten-thousandths."
#[derive(Clone, Copy, Debug, PartialEq, Eq)]
pub struct Tariff {
    /// The flat part, in grosze.
    pub flat: u64,
    /// The rate, in ten-thousandths of the amount.
    pub rate: u64,
}

/// An order's fee, and the division's remainder "beside it".
#[derive(Clone, Copy, Debug, PartialEq, Eq)]
pub struct Fee {
    /// The fee, in grosze.
    pub fee: u64,
    /// What the division leaves, in ten-thousandths of a grosz.
    pub remainder: u64,
}

impl Tariff {
    /// "An order's fee is the flat part plus the whole part of amount times rate
    /// over 10,000, and the division's remainder is given beside it." (Of a
    /// tariff and an amount in their ranges.)
    pub fn fee_of(self, amount: u64) -> Fee {
        let product = amount * self.rate;
        Fee {
            fee: self.flat + product / 10_000,
            remainder: product % 10_000,
        }
    }

    /// "the flat part within the old fee range", and "a rate, 0 to 10,000".
    pub fn is_in_range(self) -> bool {
        self.flat <= MOST_AMOUNT && self.rate <= MOST_RATE
    }

    /// "its soundness (the division holds)": is this the fee of that amount? It
    /// is asked by multiplying, without dividing again, and of a tariff and an
    /// amount in their ranges.
    pub fn divides(self, amount: u64, fee: Fee) -> bool {
        fee.fee <= MOST_AMOUNT
            && fee.remainder < 10_000
            && self.flat <= fee.fee
            && 10_000 * (fee.fee - self.flat) + fee.remainder == amount * self.rate
    }
}
