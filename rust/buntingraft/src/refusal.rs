//! A refusal: the call that was refused, and the number of the first question
//! that was answered no.

use crate::question::Call;
use std::error::Error;
use std::fmt;

/// A refused call. The book is as it was before it, byte for byte.
///
/// The numbers of an intake and those of the other calls are two sets: 10, 11,
/// 13, 14, 16, 17, 19, 20, 22, 23 and 901 are in both, and mean different things
/// (905 and 907 are in both too, and ask about the same). So a refusal carries
/// its call too, and two are equal only where both agree.
#[derive(Clone, Copy, Debug, PartialEq, Eq, Hash)]
pub struct Refusal {
    call: Call,
    number: u64,
}

impl Refusal {
    /// The refusal of a call with a number.
    pub(crate) fn new(call: Call, number: u64) -> Refusal {
        Refusal { call, number }
    }

    /// The call that was refused.
    pub fn call(&self) -> Call {
        self.call
    }

    /// The number of the first question that was answered no.
    pub fn number(&self) -> u64 {
        self.number
    }

    /// That question.
    pub fn question(&self) -> &'static str {
        let mut asked = self.call.questions().iter();
        asked
            .find(|question| question.number == self.number)
            .map_or("unknown number", |question| question.text)
    }
}

impl fmt::Display for Refusal {
    fn fmt(&self, f: &mut fmt::Formatter<'_>) -> fmt::Result {
        write!(f, "refused with {}: {}", self.number, self.question())
    }
}

impl Error for Refusal {}
