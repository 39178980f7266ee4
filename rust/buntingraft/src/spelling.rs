//! Money as text, in the one spelling that order files have it in. That the call
//! is safe is for the same reason as those of a book.

use crate::book::done;
use crate::question::Call;
use crate::refusal::Refusal;
use crate::report::whole;
use crate::sys::{self, Reply};
use crate::MOST_MONEY_BYTES;

/// Writes grosze as zloty, a point and two digits, without a leading zero but
/// for a single one before the point. Amounts and fees are shown so, and an
/// order file must spell its amounts and its sum so.
///
/// ```
/// use buntingraft::{write_money, Amount};
///
/// assert_eq!(write_money(17_550), "175.50");
/// assert_eq!(write_money(5), "0.05");
/// assert_eq!(format!("{:>8}|{:<8}|", Amount(0), Amount(750)), "    0.00|7.50    |");
/// ```
pub fn write_money(grosze: u64) -> String {
    let text = whole(MOST_MONEY_BYTES, |output| write_money_into(grosze, output));
    let text = text.expect("the output is long enough for any money");
    String::from_utf8(text).expect("money is digits and a point")
}

/// [`write_money`] for a caller who has an output, of
/// [`MOST_MONEY_BYTES`](crate::MOST_MONEY_BYTES) for any. Gives the length
/// written; the bytes behind it stay as they are. A refusal, with 30, leaves
/// every byte of the output.
///
/// ```
/// use buntingraft::write_money_into;
///
/// let mut output = *b"K: ......";
/// assert_eq!(write_money_into(750, &mut output[3..])?, 4);
/// assert_eq!(&output, b"K: 7.50..");
/// assert_eq!(write_money_into(750, &mut output[..3]).unwrap_err().number(), 30);
/// # Ok::<(), buntingraft::Refusal>(())
/// ```
pub fn write_money_into(grosze: u64, output: &mut [u8]) -> Result<usize, Refusal> {
    let reply = money_reply(grosze, output);
    done(Call::WriteMoney, reply).map(|(length, _)| length as usize)
}

/// The archive's reply to money.
fn money_reply(grosze: u64, output: &mut [u8]) -> Reply {
    // SAFETY: `output` is an exclusive slice.
    unsafe { sys::buntingraft_write_money(grosze, output.as_mut_ptr(), output.len()) }
}

#[cfg(test)]
mod tests {
    use super::*;

    #[test]
    fn a_reply_to_money_has_its_length_or_its_number_and_0() {
        let reply = |grosze, length| {
            let mut output = [0; MOST_MONEY_BYTES];
            let reply = money_reply(grosze, &mut output[..length]);
            [reply.status, reply.first, reply.second]
        };
        assert_eq!(reply(0, 4), [0, 4, 0]);
        assert_eq!(reply(17_550, 21), [0, 6, 0]);
        assert_eq!(reply(17_550, 5), [2, 30, 0]);
        assert_eq!(reply(0, 0), [2, 30, 0]);
        assert_eq!(reply(u64::MAX, 20), [2, 30, 0]);
    }

    #[test]
    fn the_longest_money_has_the_most_bytes() {
        let longest = write_money(u64::MAX);
        assert_eq!(longest, "184467440737095516.15");
        assert_eq!(longest.len(), MOST_MONEY_BYTES);
    }
}
