//! The field engineer's card of document 00, its five lines.

use crate::helpers::*;
use reference::{Answer, Book, Money};

#[test]
fn a_surname_of_31_polish_letters() {
    // "Load a surname of 31 Polish letters. Catches lengths counted in bytes."
    let mut book = Book::empty();
    let draft = Draft::new("ZS1", &["1.00"]).field(4, &"Ł".repeat(31));
    assert_eq!(intake(&mut book, &draft), accepted(1, 0));
    let draft = Draft::new("ZS2", &["1.00"]).field(4, &"Ł".repeat(32));
    assert_eq!(intake(&mut book, &draft), accepted(1, 1));
}

#[test]
fn fund_the_amounts_and_leave_the_fees_empty() {
    // "Fund the amounts, leave the fees empty, pair. Catches one money paying
    // for the other."
    let mut book = Book::empty();
    intake(&mut book, &Draft::new("ZS1", &["100.00", "25.50"]));
    transfer(&mut book, "EPEZZS1-201007-A-0-K", 1_000_000);
    assert_eq!(pair(&mut book, "ZS1"), Answer::Short { k: 0, o: 700 });

    // And the other way round.
    intake(&mut book, &Draft::new("ZS2", &["100.00", "25.50"]));
    transfer(&mut book, "EPEZZS2-201007-A-0-O", 1_000_000);
    assert_eq!(pair(&mut book, "ZS2"), Answer::Short { k: 12_550, o: 0 });
}

#[test]
fn pair_one_grosz_short_then_exactly() {
    // "Pair one grosz short, then exactly. Catches an edge moved by one."
    let mut book = Book::empty();
    intake(&mut book, &Draft::new("ZS1", &["100.00", "25.50"]));
    transfer(&mut book, "EPEZZS1-201007-A-0-K", 12_549);
    transfer(&mut book, "EPEZZS1-201007-A-0-O", 699);
    assert_eq!(pair(&mut book, "ZS1"), Answer::Short { k: 1, o: 1 });
    transfer(&mut book, "EPEZZS1-201007-A-0-K", 1);
    assert_eq!(pair(&mut book, "ZS1"), Answer::Short { k: 0, o: 1 });
    transfer(&mut book, "EPEZZS1-201007-A-0-O", 1);
    assert_eq!(pair(&mut book, "ZS1"), Answer::Paired);
    let shipment = book.shipment(b"ZS1").unwrap();
    assert_eq!((shipment.free(Money::K), shipment.free(Money::O)), (0, 0));
}

#[test]
fn a_file_whose_sum_is_wrong() {
    // "Load a file whose sum is wrong, then read the sheet. Catches a file half
    // entered."
    let mut book = zs1_waiting();
    let before = sheet(&book);
    let draft = Draft::new("ZS2", &["100.00", "25.50"]).header(12, "125.51");
    assert_eq!(intake(&mut book, &draft), refused(132));
    assert_eq!(sheet(&book), before);
    assert_eq!(before.len(), 1);
    // The identifier is still free, so the right file is taken.
    let draft = Draft::new("ZS2", &["100.00", "25.50"]);
    assert_eq!(intake(&mut book, &draft), accepted(2, 0));
    assert_eq!(book.row_count(), 5);
    assert_eq!(sheet(&book)[1].identifier, b"ZS2");
}

#[test]
fn return_the_surplus_twice() {
    // "Return the surplus twice. Catches money sent back that is no longer
    // held."
    let mut book = zs1_paired();
    transfer(&mut book, "EPEZZS1-201007-A-0-K", 77);
    assert_eq!(give_back(&mut book, "ZS1", ZWR, K), returned(77, 0));
    assert_eq!(give_back(&mut book, "ZS1", ZWR, K), refused(23));
    assert_eq!(book.shipment(b"ZS1").unwrap().held(Money::K), 17_550);
    // A late transfer is a surplus again.
    transfer(&mut book, "EPEZZS1-201007-A-0-K", 5);
    assert_eq!(give_back(&mut book, "ZS1", ZWR, K), returned(5, 0));
    assert_eq!(give_back(&mut book, "ZS1", ZWR, K), refused(23));
}
