//! Memory that is too short, at every length from 0: the beginning of a good
//! book, and of an empty one.

use super::{calls_in_turn, try_calls, Desk};
use crate::coverage::Coverage;
use crate::layout::{HEADS, LENGTH, ROWS};
use crate::lent::Lent;
use crate::twin::Twin;
use reference::{Answer, Book};

/// Tries making an empty book and two calls at every length, and every call at
/// some lengths.
pub fn check(rich: &[u8], book: &Book, coverage: &mut Coverage) {
    for length in 0..LENGTH {
        let calls = calls_in_turn(book, length);
        let edge = [0, 1, HEADS, HEADS + 1, ROWS, LENGTH - 1].contains(&length);
        let tried = if edge || length % 251 == 0 {
            &calls[..]
        } else {
            &calls[1..3]
        };
        let mut desk = Desk::with_room(length, coverage);
        for bytes in [&rich[..length], &vec![0; length]] {
            make_empty_is_refused(bytes, desk.coverage);
            let what = || format!("{length} bytes, the first of a good book");
            try_calls(&Twin::reading(bytes), tried, what, &mut desk);
        }
    }
}

/// Is making an empty book in so short a memory refused with 10?
fn make_empty_is_refused(bytes: &[u8], coverage: &mut Coverage) {
    let answer = Lent::holding(bytes).make_empty();
    let expected = Answer::Refused(10);
    assert_eq!(answer, Ok(expected), "make empty in {} bytes", bytes.len());
    coverage.note_answer(buntingraft::Call::MakeEmpty, &expected);
}
