//! A good book, and a full one, with one byte changed at every place; and the
//! good one with two changed at random places.

use super::{calls_in_turn, every_call, try_calls, Desk};
use crate::coverage::Coverage;
use crate::layout::{row_places, sound_book, HEAD, HEADS, LENGTH};
use crate::numbers::Numbers;
use crate::twin::Twin;
use reference::Book;

/// How many times two bytes are changed at once.
const DOUBLES: usize = 40_000;

/// Tries calls on the good book with bytes changed: every call where a byte
/// becomes one more, flipped at the top, FF or 0; three calls for its own
/// shipment where a byte that is used becomes any other; four calls where two
/// bytes change.
pub fn check(seed: u64, rich: &[u8], book: &Book, coverage: &mut Coverage) {
    let mut desk = Desk::with_room(LENGTH, coverage);
    let mut twin = Twin::reading(rich);
    for (place, good) in rich.iter().enumerate() {
        let calls = calls_in_turn(book, place);
        for value in four_others(*good) {
            try_changed(&mut twin, &[(place, value)], &calls, &mut desk);
        }
    }
    let owners = owners(book);
    for (place, shipment) in &owners {
        for value in 0..=255 {
            let turn = usize::from(value);
            let calls = every_call(book, *shipment, turn);
            let some = &calls[turn % 4 * 3..][..3];
            try_changed(&mut twin, &[(*place, value)], some, &mut desk);
        }
    }
    let mut numbers = Numbers::of(seed, u64::MAX - 1);
    for turn in 0..DOUBLES {
        let changes = [0, 1].map(|_| (numbers.pick(&owners).0, numbers.any() as u8 % 64));
        let calls = calls_in_turn(book, turn);
        let some = &calls[turn % 3 * 4..][..4];
        try_changed(&mut twin, &changes, some, &mut desk);
    }
}

/// Tries two calls on a book without a head or row to spare, where a byte
/// becomes one more, flipped at the top, FF or 0.
pub fn check_full(full: &[u8], book: &Book, coverage: &mut Coverage) {
    let mut desk = Desk::with_room(LENGTH, coverage);
    let mut twin = Twin::reading(full);
    for (place, good) in full.iter().enumerate() {
        let calls = calls_in_turn(book, place);
        let some = &calls[place / 32 % 6 * 2..][..2];
        for value in four_others(*good) {
            try_changed(&mut twin, &[(place, value)], some, &mut desk);
        }
    }
}

/// Four values that a byte is changed to.
fn four_others(good: u8) -> [u8; 4] {
    [good.wrapping_add(1), good ^ 0x80, 0xFF, 0]
}

/// The bytes that are used, each with the place of its shipment: the count, the
/// heads and the rows.
fn owners(book: &Book) -> Vec<(usize, usize)> {
    let mut owners = vec![(0, 0)];
    let mut first = 0;
    for (shipment, held) in book.shipments.iter().enumerate() {
        let head = HEADS + HEAD * shipment;
        let orders = first..first + held.rows.len();
        first = orders.end;
        let bytes = (head..head + HEAD).chain(orders.flat_map(row_places));
        owners.extend(bytes.map(|place| (place, shipment)));
    }
    owners
}

/// Tries calls with these bytes changed, and puts the good ones back.
fn try_changed(
    twin: &mut Twin,
    changes: &[(usize, u8)],
    calls: &[reference::Call],
    desk: &mut Desk,
) {
    let good: Vec<u8> = changes
        .iter()
        .map(|(place, _)| twin.lent.bytes()[*place])
        .collect();
    for (place, value) in changes {
        twin.lent.bytes_mut()[*place] = *value;
    }
    twin.book = sound_book(twin.lent.bytes());
    let what = || format!("a good book with bytes changed (place, value): {changes:?}");
    try_calls(twin, calls, what, desk);
    for ((place, _), value) in changes.iter().zip(good).rev() {
        twin.lent.bytes_mut()[*place] = value;
    }
}
