//! The extra address field judged early, and a record's fault without it. That the
//! calls are safe is for the same reason as those of a book.

use crate::book::done;
use crate::question::Call;
use crate::refusal::Refusal;
use crate::sys::{self, Reply};

/// What is said of an extra address field (record field 12), by value, so that the
/// field itself need not be kept.
#[derive(Clone, Copy, Debug, Default, PartialEq, Eq, Hash)]
pub struct ExtraSaid {
    /// It is empty.
    pub empty: bool,
    /// It has fault 7: it is not empty, and neither `PR` nor `SP_` or `PP_` with 1
    /// to 5 digits.
    pub fails: bool,
    /// It starts or ends with a space.
    pub spaced: bool,
}

impl ExtraSaid {
    /// The bits by which the archive knows what is said: 1 empty, 2 fails, 4
    /// spaced.
    pub fn bits(self) -> u64 {
        u64::from(self.empty) | u64::from(self.fails) << 1 | u64::from(self.spaced) << 2
    }

    /// What these bits say.
    fn of(bits: u64) -> ExtraSaid {
        ExtraSaid {
            empty: bits & 1 != 0,
            fails: bits & 2 != 0,
            spaced: bits & 4 != 0,
        }
    }
}

/// Judges an extra address field alone, whatever its bytes are.
///
/// ```
/// use buntingraft::{judge_around, judge_extra};
///
/// let said = judge_extra(b"SP_");
/// assert!(said.fails && !said.empty && !said.spaced);
///
/// let before = "2|1|100.00|Nowak|Jan|Łódź|90-001|||||".as_bytes();
/// let after = "||ZASIŁEK|2020-10||||".as_bytes();
/// assert_eq!(judge_around(said, before, after)?, Some(7));
/// assert_eq!(judge_around(judge_extra(b"SP_12"), before, after)?, None);
/// assert_eq!(judge_around(judge_extra(b""), before, after)?, Some(5)); // no address at all
/// # Ok::<(), buntingraft::Refusal>(())
/// ```
pub fn judge_extra(extra: &[u8]) -> ExtraSaid {
    let reply = extra_reply(extra);
    let (bits, _) = done(Call::JudgeExtra, reply).expect("it is asked no question");
    ExtraSaid::of(bits)
}

/// The fault of a record, 1 to 10, if it has one, by what was said of its extra
/// address field and without the field: `before` is the record's bytes up to the
/// field, and `after` those behind it, each with the bar that stands next to the
/// field. It is the fault by which an intake would take the order in as Faulty.
///
/// It is refused with 901 unless `before` is eleven fields, each ended by a bar, and
/// `after` 7 to 20, each begun by one, all of it text without CR or LF. Nothing else
/// of a record is asked, and each answer about the field stands for its own part in
/// the faults, also where no field could have them together.
pub fn judge_around(said: ExtraSaid, before: &[u8], after: &[u8]) -> Result<Option<u64>, Refusal> {
    judge_around_by_bits(said.bits(), before, after)
}

/// [`judge_around`] for a caller who holds what was said as a number of
/// [`bits`](ExtraSaid::bits), which may be any: those above 4 say nothing.
pub fn judge_around_by_bits(
    bits: u64,
    before: &[u8],
    after: &[u8],
) -> Result<Option<u64>, Refusal> {
    let (fault, _) = done(Call::JudgeAround, around_reply(bits, before, after))?;
    Ok((fault > 0).then_some(fault))
}

/// The archive's reply to an extra field.
fn extra_reply(extra: &[u8]) -> Reply {
    // SAFETY: `extra` is a shared slice.
    unsafe { sys::buntingraft_judge_extra(extra.as_ptr(), extra.len()) }
}

/// The archive's reply to what lies around one.
fn around_reply(bits: u64, before: &[u8], after: &[u8]) -> Reply {
    // SAFETY: `before` and `after` are shared slices.
    unsafe {
        sys::buntingraft_judge_around(
            bits,
            before.as_ptr(),
            before.len(),
            after.as_ptr(),
            after.len(),
        )
    }
}

#[cfg(test)]
mod tests {
    use super::*;

    /// A reply as three numbers.
    fn numbers(reply: Reply) -> [u64; 3] {
        [reply.status, reply.first, reply.second]
    }

    #[test]
    fn a_reply_to_an_extra_field_has_its_bits_and_0() {
        for (extra, bits) in [
            ("", 1),
            ("PR", 0),
            ("SP_1", 0),
            ("PP_12345", 0),
            ("x", 2),
            ("PR ", 6),
            (" ", 6),
        ] {
            assert_eq!(numbers(extra_reply(extra.as_bytes())), [0, bits, 0]);
        }
        for byte in 0..=255 {
            let bits = if byte == b' ' { 6 } else { 2 };
            assert_eq!(numbers(extra_reply(&[byte])), [0, bits, 0]);
        }
    }

    #[test]
    fn a_reply_to_what_lies_around_has_its_fault_or_its_number_and_0() {
        let before = b"2|1|1.00|Lis|Ewa|Radom|26-600|Radom|Polna|7||";
        let after = b"||RENTA|2020-10||||";
        let reply = |bits| numbers(around_reply(bits, before, after));
        assert_eq!(reply(0), [0, 0, 0]);
        assert_eq!(reply(1), [0, 0, 0]);
        assert_eq!(reply(2), [0, 7, 0]);
        assert_eq!(reply(4), [0, 10, 0]);
        assert_eq!(reply(u64::MAX - 7), [0, 0, 0]);
        assert_eq!(
            numbers(around_reply(0, &before[1..], &after[1..])),
            [2, 901, 0]
        );
        assert_eq!(numbers(around_reply(7, b"", b"")), [2, 901, 0]);
    }

    #[test]
    fn what_is_said_has_bits_of_its_own() {
        for bits in 0..8 {
            assert_eq!(ExtraSaid::of(bits).bits(), bits);
        }
        let said = ExtraSaid {
            fails: true,
            ..ExtraSaid::default()
        };
        assert_eq!(said.bits(), 2);
    }
}
