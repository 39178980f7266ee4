//! Memory full of one byte or of random ones, alone and as the heads or the
//! rows of an otherwise good book.

use super::{calls_in_turn, try_calls, Desk};
use crate::coverage::Coverage;
use crate::layout::{HEADS, LENGTH, ROWS};
use crate::lent::Lent;
use crate::numbers::Numbers;
use crate::twin::Twin;
use reference::{Answer, Book};

/// How many times each kind of random memory is drawn.
const DRAWS: usize = 300;

/// Tries every call on each kind of garbage, then makes an empty book in it.
pub fn check(seed: u64, rich: &[u8], book: &Book, coverage: &mut Coverage) {
    let mut desk = Desk::with_room(LENGTH, coverage);
    for byte in 0..=255 {
        let what = format!("every byte {byte}");
        let turn = usize::from(byte);
        try_garbage(vec![byte; LENGTH], &what, book, turn, &mut desk);
    }
    let mut numbers = Numbers::of(seed, u64::MAX);
    for draw in 0..DRAWS {
        let mut any = rich.to_vec();
        let (what, part) = match draw % 4 {
            0 => ("random bytes", 0..LENGTH),
            1 => ("random bytes behind a good count", 1..LENGTH),
            2 => ("random heads", HEADS..ROWS),
            _ => ("random rows", ROWS..LENGTH),
        };
        any[part].fill_with(|| numbers.any() as u8);
        let what = format!("seed {seed}, draw {draw}: {what}");
        try_garbage(any, &what, book, draw, &mut desk);
    }
}

/// Tries every call on these bytes, then makes an empty book in them.
fn try_garbage(bytes: Vec<u8>, what: &str, book: &Book, turn: usize, desk: &mut Desk) {
    let twin = Twin::reading(&bytes);
    try_calls(&twin, &calls_in_turn(book, turn), || what.into(), desk);
    let mut lent = Lent::holding(&bytes);
    assert_eq!(lent.make_empty(), Ok(Answer::Done), "{what}");
    let made = Twin::reading(lent.bytes()).book;
    assert_eq!(made, Some(Book::empty()), "{what}");
    let make_empty = buntingraft::Call::MakeEmpty;
    desk.coverage.note_answer(make_empty, &Answer::Done);
}
