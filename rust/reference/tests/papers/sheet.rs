//! "The balance sheet": its rows in every stage and state, its totals, and the
//! refusals 10, 25 and 26.

use crate::helpers::*;
use reference::{Answer, Book, SheetRow, Stage, State, Sums, Waits};

const TITLE_K: &str = "EPEZZS1-201007-A-0-K";
const TITLE_O: &str = "EPEZZS1-201007-A-0-O";

/// "no total above 999,999,999,999,999"
const MOST: u64 = 999_999_999_999_999;

/// A row that no sheet fills.
fn untouched() -> SheetRow {
    SheetRow {
        identifier: b"untouched".to_vec(),
        sums: [7; 8],
    }
}

/// A sheet that must be refused, with the table and the totals as they were.
fn refuse(book: &Book, rows: usize, totals: Sums) -> u32 {
    let mut table = vec![untouched(); rows];
    let mut after = totals;
    let answer = book.sheet(&mut table, &mut after);
    assert_eq!(after, totals, "{answer:?}");
    assert!(table.iter().all(|row| *row == untouched()), "{answer:?}");
    answer.unwrap_err()
}

/// The totals after a sheet that must be taken.
fn totals_after(book: &Book, totals: Sums) -> Sums {
    let mut table = vec![SheetRow::default(); book.shipments.len()];
    let mut after = totals;
    assert_eq!(book.sheet(&mut table, &mut after), Ok(table.len()));
    after
}

/// The sums of a book's only shipment.
fn only_row(book: &Book) -> Sums {
    let rows = sheet(book);
    assert_eq!(rows.len(), 1);
    rows[0].sums
}

/// A Paired shipment of one order of 1.00 with F 350, 5 and 3 free and 10 and
/// 20 returned, its order then put in a state.
fn paired_in(state: State) -> Book {
    let mut book = Book::empty();
    intake(&mut book, &Draft::new("ZS1", &["1.00"]));
    transfer(&mut book, TITLE_K, 110);
    transfer(&mut book, TITLE_O, 370);
    assert_eq!(pair(&mut book, "ZS1"), Answer::Paired);
    assert_eq!(give_back(&mut book, "ZS1", ZWR, K), returned(10, 0));
    assert_eq!(give_back(&mut book, "ZS1", ZWR, O), returned(20, 0));
    transfer(&mut book, TITLE_K, 5);
    transfer(&mut book, TITLE_O, 3);
    book.shipments[0].go_ahead = matches!(state, State::Faulty { .. });
    book.shipments[0].rows[0].state = state;
    assert!(book.is_sound());
    book
}

#[test]
fn zs1_line_by_line() {
    let mut book = zs1_waiting();
    assert_eq!(only_row(&book), [0; 8]);
    assert_eq!(sheet(&book)[0].identifier, b"ZS1");

    // "1. K 17,549 and O 1,050 in", and line 3's 101: all of it is free.
    transfer(&mut book, TITLE_K, 17_549);
    transfer(&mut book, TITLE_O, 1_050);
    go_ahead(&mut book, "ZS1");
    transfer(&mut book, TITLE_K, 101);
    let sums = [17_650, 0, 17_650, 0, 1_050, 0, 1_050, 0];
    assert_eq!(only_row(&book), sums);

    // "3. [...] pair: Paired, free 100 and 0."
    assert_eq!(pair(&mut book, "ZS1"), Answer::Paired);
    let sums = [17_650, 17_550, 100, 0, 1_050, 1_050, 0, 0];
    assert_eq!(only_row(&book), sums);

    // "4. ZWR K: 100" and "5. OPR K: 5,000, 1 order; OPR O: 350."
    give_back(&mut book, "ZS1", ZWR, K);
    assert_eq!(only_row(&book)[..4], [17_650, 17_550, 0, 100]);
    give_back(&mut book, "ZS1", OPR, K);
    assert_eq!(only_row(&book)[..4], [17_650, 12_550, 0, 5_100]);
    give_back(&mut book, "ZS1", OPR, O);
    assert_eq!(only_row(&book)[4..], [1_050, 700, 0, 350]);

    // "6. Post and pay 1": by then K 15,100 and O 700 have left.
    post(&mut book, "ZS1", 1);
    pay(&mut book, "ZS1", 1);
    let sums = [17_650, 2_550, 0, 15_100, 1_050, 350, 0, 700];
    assert_eq!(only_row(&book), sums);

    // "7. Withdraw 3; ZZR K 2,550, O 350." "8. Then K left 17,650, O left
    // 1,050, nothing held or free."
    withdraw(&mut book, "ZS1", 3);
    assert_eq!(only_row(&book), sums);
    give_back(&mut book, "ZS1", ZZR, K);
    give_back(&mut book, "ZS1", ZZR, O);
    let sums = [17_650, 0, 0, 17_650, 1_050, 0, 0, 1_050];
    assert_eq!(only_row(&book), sums);
}

#[test]
fn every_state_of_a_paired_shipment() {
    let waits = |k, o| Waits { k, o };
    let faulty = |k, o| State::Faulty {
        fault: 10,
        waits: waits(k, o),
    };
    let withdrawn = |k, o| State::Withdrawn { waits: waits(k, o) };
    // Whether K and whether O is still held; what is not held has left.
    for (state, k_held, o_held) in [
        (State::Open, true, true),
        (State::Posted, true, false),
        (State::Paid, false, false),
        (State::Undelivered { k_waits: true }, true, false),
        (State::Undelivered { k_waits: false }, false, false),
        (faulty(true, true), true, true),
        (faulty(true, false), true, false),
        (faulty(false, true), false, true),
        (faulty(false, false), false, false),
        (withdrawn(true, true), true, true),
        (withdrawn(true, false), true, false),
        (withdrawn(false, true), false, true),
        (withdrawn(false, false), false, false),
    ] {
        let (k_held, k_left) = if k_held { (100, 10) } else { (0, 110) };
        let (o_held, o_left) = if o_held { (350, 20) } else { (0, 370) };
        let sums = [115, k_held, 5, k_left, 373, o_held, 3, o_left];
        assert_eq!(only_row(&paired_in(state)), sums, "{state:?}");
    }
}

#[test]
fn orders_of_a_waiting_or_closed_shipment_hold_nothing() {
    let mut book = zs1_waiting();
    transfer(&mut book, TITLE_K, 20_000);
    transfer(&mut book, TITLE_O, 30);
    let sums = [20_000, 0, 20_000, 0, 30, 0, 30, 0];
    assert_eq!(only_row(&book), sums);
    go_ahead(&mut book, "ZS1");
    close(&mut book, "ZS1");
    assert_eq!(book.shipments[0].stage, Stage::Closed);
    assert_eq!(only_row(&book), sums);
    give_back(&mut book, "ZS1", ZWR, O);
    transfer(&mut book, TITLE_O, 4);
    let sums = [20_000, 0, 20_000, 0, 34, 0, 4, 30];
    assert_eq!(only_row(&book), sums);
}

#[test]
fn rows_stand_in_order_of_intake_and_each_counts_in_the_totals() {
    let mut book = zs1_paired();
    intake(&mut book, &Draft::new("AA1", &["1.00"]));
    intake(&mut book, &Draft::new("MM1", &["1.00"]));
    transfer(&mut book, "EPEZMM1-201007-A-0-O", 9);
    let rows = sheet(&book);
    let identifiers: Vec<&[u8]> = rows.iter().map(|row| &row.identifier[..]).collect();
    assert_eq!(identifiers, [b"ZS1", b"AA1", b"MM1"]);
    assert_eq!(
        totals_after(&book, [1, 2, 3, 4, 5, 6, 7, 8]),
        [17_551, 17_552, 3, 4, 1_064, 1_056, 16, 8]
    );
}

#[test]
fn refusal_10_is_asked_first() {
    let mut book = zs1_paired();
    book.shipments[0].accepted_k -= 1;
    for (rows, totals) in [(1, [0; 8]), (0, [0; 8]), (1, [u64::MAX; 8])] {
        assert_eq!(refuse(&book, rows, totals), 10);
    }
}

#[test]
fn refusal_25_a_row_for_each_shipment() {
    let mut book = zs1_paired();
    assert_eq!(refuse(&book, 0, [0; 8]), 25);
    intake(&mut book, &Draft::new("ZS2", &["1.00"]));
    assert_eq!(refuse(&book, 1, [0; 8]), 25);
    // 25 is asked before 26.
    assert_eq!(refuse(&book, 1, [u64::MAX; 8]), 25);
    for rows in [2, 3, 40] {
        let mut table = vec![untouched(); rows];
        assert_eq!(book.sheet(&mut table, &mut [0; 8]), Ok(2));
        assert_eq!(table[..2], sheet(&book));
        assert!(table[2..].iter().all(|row| *row == untouched()), "{rows}");
    }
    // "An empty book needs no row."
    assert_eq!(Book::empty().sheet(&mut [], &mut [0; 8]), Ok(0));
}

#[test]
fn refusal_26_a_total_above_the_cap() {
    let book = paired_in(State::Open);
    let sums = [115, 100, 5, 10, 373, 350, 3, 20];
    assert_eq!(only_row(&book), sums);
    let room = sums.map(|sum| MOST - sum);
    assert_eq!(totals_after(&book, room), [MOST; 8]);
    for place in 0..8 {
        let wrapping = u64::MAX - sums[place] + 1;
        for total in [room[place] + 1, MOST, MOST + 1, wrapping, u64::MAX] {
            let mut totals = [0; 8];
            totals[place] = total;
            assert_eq!(refuse(&book, 1, totals), 26, "{totals:?}");
        }
    }
}

#[test]
fn refusal_26_where_nothing_is_added() {
    let book = Book::empty();
    assert_eq!(totals_after(&book, [MOST; 8]), [MOST; 8]);
    for place in 0..8 {
        for total in [MOST + 1, u64::MAX] {
            let mut totals = [0; 8];
            totals[place] = total;
            assert_eq!(refuse(&book, 0, totals), 26, "{totals:?}");
        }
    }
}

#[test]
fn three_books_of_the_most_money_fit_in_the_totals() {
    let mut book = Book::empty();
    for number in 1..=32 {
        intake(&mut book, &Draft::many(&format!("AA{number}"), 1));
        transfer(&mut book, &format!("EPEZAA{number}-201007-A-0-K"), CAP);
    }
    let mut totals = [0; 8];
    for times in 1..=3 {
        totals = totals_after(&book, totals);
        let sum = times * 32 * CAP;
        assert_eq!(totals, [sum, 0, sum, 0, 0, 0, 0, 0]);
    }
    assert_eq!(refuse(&book, 32, totals), 26);
}
