//! The amount that makes a total with its fee.

use crate::book::done;
use crate::money::Amount;
use crate::question::Call;
use crate::refusal::Refusal;
use crate::sys;

/// The order amount that makes a total: `total` is the amount and its fee
/// together, in grosze, where a fee has this flat part and this rate. There is
/// none where no amount from 1 to 999,999,999 with a fee of at most 999,999,999
/// makes it, and never a second one.
///
/// The total is what a payer spends in all. It is of neither money, and may be any
/// number. It is refused with 907 for the rate, or then with 905 for the flat part.
///
/// ```
/// use buntingraft::{amount_for, Amount};
///
/// assert_eq!(amount_for(350, 125, 10_475)?, Some(Amount(10_000))); // 350 and 1.25 %
/// assert_eq!(amount_for(0, 10_000, 3)?, None); // 1 makes 2, 2 makes 4
/// assert_eq!(amount_for(350, 10_001, 10_475).unwrap_err().number(), 907);
/// # Ok::<(), buntingraft::Refusal>(())
/// ```
pub fn amount_for(flat: u64, rate: u64, total: u64) -> Result<Option<Amount>, Refusal> {
    let reply = sys::buntingraft_amount_for(flat, rate, total);
    let (amount, _) = done(Call::AmountFor, reply)?;
    Ok((amount > 0).then_some(Amount(amount)))
}

#[cfg(test)]
mod tests {
    use super::*;

    #[test]
    fn a_reply_to_a_total_has_its_amount_or_its_number_and_0() {
        let reply = |flat, rate, total| {
            let reply = sys::buntingraft_amount_for(flat, rate, total);
            [reply.status, reply.first, reply.second]
        };
        assert_eq!(reply(350, 0, 10_350), [0, 10_000, 0]);
        assert_eq!(reply(350, 125, 10_475), [0, 10_000, 0]);
        assert_eq!(reply(0, 10_000, 1_999_999_998), [0, 999_999_999, 0]);
        assert_eq!(reply(0, 10_000, 3), [0, 0, 0]);
        assert_eq!(reply(5, 0, u64::MAX), [0, 0, 0]);
        assert_eq!(reply(1_000_000_000, 10_001, 1), [2, 907, 0]);
        assert_eq!(reply(1_000_000_000, 10_000, 1), [2, 905, 0]);
    }
}
