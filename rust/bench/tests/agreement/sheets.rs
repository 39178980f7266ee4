//! The sheets of both are alike, and so is what a refused one leaves.

use crate::Rivals;
use bench::calls::Call;
use bench::files::{order_file, Records, PROFILE, RATED};
use bench::sheets::{agreed_sheet, Lent};
use buntingraft::{Amount, Fee, SheetRow, Totals};

/// The most that a total may be.
const TOTAL_CAP: u64 = 999_999_999_999_999;

/// A table of so many rows that hold something, and these totals.
fn lent(rows: usize, totals: Totals) -> Lent {
    let row = SheetRow {
        id_len: 99,
        k_held: Amount(5),
        o_left: Fee(u64::MAX),
        ..SheetRow::default()
    };
    Lent {
        table: vec![row; rows],
        totals,
    }
}

/// The sheets of a sound book: its table too short, exact and longer, each of
/// two totals just within the cap, just above it and near 2^64.
pub fn agree_on_sheets(book: &[u8]) {
    let shipments = usize::from(book[0]);
    for rows in [0, shipments.saturating_sub(1), shipments, shipments + 1] {
        let answer = agreed_sheet(book, &lent(rows, Totals::default()));
        let expected = if rows < shipments {
            Err(25)
        } else {
            Ok(shipments)
        };
        assert_eq!(answer, expected);
    }
    let mut whole = Lent::default();
    let filled = bench::sheets::archive_sheet(&mut book.to_vec(), &mut whole);
    assert_eq!(filled, Ok(shipments));
    let room = [
        TOTAL_CAP - whole.totals.k_left.0,
        TOTAL_CAP - whole.totals.o_accepted.0,
    ];
    for (more, expected) in [(0, Ok(shipments)), (1, Err(26)), (1 << 63, Err(26))] {
        let of_amounts = Totals {
            k_left: Amount(room[0] + more),
            ..Totals::default()
        };
        let of_fees = Totals {
            o_accepted: Fee(room[1] + more),
            ..Totals::default()
        };
        for totals in [of_amounts, of_fees] {
            assert_eq!(agreed_sheet(book, &lent(shipments, totals)), expected);
        }
    }
}

#[test]
fn an_empty_book_has_an_empty_sheet() {
    agree_on_sheets(&Rivals::new().archive);
}

#[test]
fn a_full_book_has_a_row_for_each_shipment() {
    let mut rivals = Rivals::new();
    for n in 1..=32 {
        let profile = [&PROFILE, &RATED][n % 2];
        let file = order_file(&format!("SHIPMENT{n:02}"), 64, Records::Faulty);
        rivals.make(Call::Intake(profile, &file.name, &file.bytes));
    }
    assert_eq!(rivals.archive[0], 32);
    agree_on_sheets(&rivals.archive);
}

#[test]
fn memory_that_is_no_sound_book_has_no_sheet() {
    for memory in [vec![0; 100], vec![0xFF; 30_000]] {
        assert_eq!(agreed_sheet(&memory, &Lent::default()), Err(10));
    }
}
