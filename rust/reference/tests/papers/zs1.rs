//! "Shipment ZS1 and its neighbours", line by line.

use crate::helpers::*;
use reference::text::read_amount;
use reference::{Answer, Book, Fee, Money, Stage, State, Tariff, Waits};

const TITLE_K: &str = "EPEZZS1-201007-A-0-K";
const TITLE_O: &str = "EPEZZS1-201007-A-0-O";

#[test]
fn lines_1_to_8() {
    let mut book = Book::empty();
    let mut left_k = 0;
    let mut left_o = 0;

    // "ZS1: orders 100.00, 50.00 (no surname), 25.50; F 350; needs 17,550 and
    // 1,050."
    assert_eq!(intake(&mut book, &Draft::zs1()), accepted(3, 1));
    let shipment = book.shipment(b"ZS1").unwrap();
    // "(ZS1's rate is 0)" (document 02, A5)
    let tariff = Tariff { flat: 350, rate: 0 };
    assert_eq!(shipment.tariff, tariff);
    for row in &shipment.rows {
        let (fee, remainder) = (350, 0);
        assert_eq!(row.fee, Fee { fee, remainder });
    }
    assert_eq!(shipment.need(Money::K), 17_550);
    assert_eq!(shipment.need(Money::O), 1_050);
    assert_eq!(shipment.stage, Stage::Waiting);
    assert_eq!(shipment.rows[0].state, State::Open);
    assert_eq!(
        shipment.rows[1].state,
        State::Faulty {
            fault: 1,
            waits: Waits::BOTH
        }
    );
    assert_eq!(shipment.rows[2].state, State::Open);

    // "1. K 17,549 and O 1,050 in; pair: 18."
    assert_eq!(transfer(&mut book, TITLE_K, 17_549), Answer::Done);
    assert_eq!(transfer(&mut book, TITLE_O, 1_050), Answer::Done);
    assert_eq!(pair(&mut book, "ZS1"), refused(18));

    // "2. Go-ahead, pair: Short 1 and 0."
    assert_eq!(go_ahead(&mut book, "ZS1"), Answer::Done);
    assert_eq!(pair(&mut book, "ZS1"), Answer::Short { k: 1, o: 0 });

    // "3. K 101 in; pair: Paired, free 100 and 0."
    assert_eq!(transfer(&mut book, TITLE_K, 101), Answer::Done);
    assert_eq!(pair(&mut book, "ZS1"), Answer::Paired);
    let shipment = book.shipment(b"ZS1").unwrap();
    assert_eq!(shipment.free(Money::K), 100);
    assert_eq!(shipment.free(Money::O), 0);
    assert_eq!(shipment.held(Money::K), 17_550);
    assert_eq!(shipment.held(Money::O), 1_050);

    // "4. ZWR K: 100; again: 23."
    assert_eq!(give_back(&mut book, "ZS1", ZWR, K), returned(100, 0));
    left_k += 100;
    assert_eq!(give_back(&mut book, "ZS1", ZWR, K), refused(23));

    // "5. OPR K: 5,000, 1 order; OPR O: 350."
    assert_eq!(give_back(&mut book, "ZS1", OPR, K), returned(5_000, 1));
    left_k += 5_000;
    // "Letting OPR for K also clear O" is a mistake to keep away from.
    assert_eq!(
        book.shipment(b"ZS1").unwrap().rows[1].state,
        State::Faulty {
            fault: 1,
            waits: Waits { k: false, o: true }
        }
    );
    assert_eq!(give_back(&mut book, "ZS1", OPR, O), returned(350, 1));
    left_o += 350;

    // "6. Post and pay 1: O 350 and K 10,000 left."
    assert_eq!(post(&mut book, "ZS1", 1), Answer::FeeEarned(350));
    left_o += 350;
    assert_eq!(pay(&mut book, "ZS1", 1), Answer::AmountPaid(10_000));
    left_k += 10_000;
    assert_eq!((left_k, left_o), (15_100, 700));

    // "7. Withdraw 3; ZZR K 2,550, O 350."
    assert_eq!(withdraw(&mut book, "ZS1", 3), Answer::Done);
    assert_eq!(give_back(&mut book, "ZS1", ZZR, K), returned(2_550, 1));
    left_k += 2_550;
    assert_eq!(give_back(&mut book, "ZS1", ZZR, O), returned(350, 1));
    left_o += 350;

    // "8. Then K left 17,650, O left 1,050, nothing held or free."
    assert_eq!((left_k, left_o), (17_650, 1_050));
    let shipment = book.shipment(b"ZS1").unwrap();
    for money in [Money::K, Money::O] {
        assert_eq!(shipment.held(money), 0);
        assert_eq!(shipment.free(money), 0);
    }
    assert_eq!(shipment.accepted(Money::K), 17_650);
    assert_eq!(shipment.accepted(Money::O), 1_050);
}

#[test]
fn line_9_amounts_that_read() {
    // "9. `9999999.99` reads 999,999,999; `0.01` reads 1."
    assert_eq!(read_amount(b"9999999.99"), Some(999_999_999));
    assert_eq!(read_amount(b"0.01"), Some(1));
}

#[test]
fn line_10_no_amount() {
    // "10. `1.5` is no amount."
    assert_eq!(read_amount(b"1.5"), None);
}

#[test]
fn line_11_created() {
    // "11. Today 20201007: created on 20200808 or 20201017 passes, 20200807 or
    // 20201018 is 103."
    for (date, expected) in [
        ("20200807", Err(103)),
        ("20200808", Ok((3, 1))),
        ("20201017", Ok((3, 1))),
        ("20201018", Err(103)),
    ] {
        for time in ["000000", "235959"] {
            let draft = Draft::zs1().header(7, &format!("{date}{time}"));
            assert_eq!(draft.judge(), expected, "{date}{time}");
        }
    }
}

#[test]
fn line_12_benefit_date() {
    // "12. Benefit date 20200907 or 20201106 passes, 20200906 is 125."
    for (date, expected) in [
        (20_200_906, Err(125)),
        (20_200_907, Ok((3, 1))),
        (20_201_106, Ok((3, 1))),
        (20_201_107, Err(125)),
    ] {
        assert_eq!(Draft::zs1().benefit_date(date).judge(), expected, "{date}");
    }
}
