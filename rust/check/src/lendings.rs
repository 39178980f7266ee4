//! What sheets are lent at random and in turn: tables about as long as a book
//! needs, and totals about as full as they may be.

use crate::numbers::Numbers;
use crate::sheet::Lending;
use reference::{Book, SheetRow, Sums, MOST_SHIPMENTS, MOST_TOTAL};

/// What the sheet of a sound book adds to the totals.
pub fn added(book: &Book) -> Sums {
    let mut table = vec![SheetRow::default(); book.shipments.len()];
    let mut totals = [0; 8];
    let filled = book.sheet(&mut table, &mut totals);
    filled.expect("a sound book fits in totals of zero");
    totals
}

/// Totals at and beside the cap and the end of the numbers, once this sum is
/// added to them.
pub fn edges(sum: u64) -> [u64; 8] {
    let room = MOST_TOTAL - sum;
    [
        room,
        room + 1,
        MOST_TOTAL,
        MOST_TOTAL + 1,
        u64::MAX - sum,
        0u64.wrapping_sub(sum),
        1u64.wrapping_sub(sum),
        u64::MAX,
    ]
}

/// A lending for the sheet of a book: most often one that is done, else with a
/// row too few or one total at an edge.
pub fn some(book: &Book, numbers: &mut Numbers) -> Lending {
    let count = book.shipments.len();
    let rows = [count.saturating_sub(1), count, count, count + 1, count + 5];
    let sums = added(book);
    let mut totals = sums.map(|sum| numbers.pick(&[0, sum, MOST_TOTAL - sum]));
    if numbers.one_in(2) {
        let place = numbers.below(totals.len());
        totals[place] = numbers.pick(&edges(sums[place]));
    }
    let rows = numbers.pick(&rows);
    Lending { rows, totals }
}

/// A lending for memory that may hold anything: most often a table for any book
/// and totals of zero, else no rows, or totals without room.
pub fn in_turn(turn: u64) -> Lending {
    let (rows, total) = match turn % 7 {
        0 => (0, 0),
        1 => (MOST_SHIPMENTS, u64::MAX),
        _ => (MOST_SHIPMENTS, 0),
    };
    Lending {
        rows,
        totals: [total; 8],
    }
}
