//! "Fees in ten-thousandths of the amount" (document 02, A5): worked fees, 906
//! and 907 at their edges, what each order's own fee does to the calls, and the
//! division in a sound book.

use crate::helpers::*;
use reference::{Answer, Book, Fee, Money, Shipment, Tariff};

const TITLE_K: &str = "EPEZZS1-201007-A-0-K";
const TITLE_O: &str = "EPEZZS1-201007-A-0-O";

/// The most that a fee may be.
const MOST: u64 = 999_999_999;

/// ZS1 with these amounts, in grosze, and this flat part and rate.
fn draft(amounts: &[u64], flat: u64, rate: u64) -> Draft {
    let texts: Vec<String> = amounts.iter().map(|amount| text_of(*amount)).collect();
    let texts: Vec<&str> = texts.iter().map(String::as_str).collect();
    Draft::new("ZS1", &texts).tariff(flat, rate)
}

/// The book that takes such a shipment in.
fn waiting(amounts: &[u64], flat: u64, rate: u64) -> Book {
    let mut book = Book::empty();
    let answer = intake(&mut book, &draft(amounts, flat, rate));
    assert_eq!(answer, accepted(amounts.len() as u64, 0));
    book
}

/// The same with orders 1 and 2 faulty, Paired, both needs covered exactly.
fn paired(amounts: &[u64], flat: u64, rate: u64) -> Book {
    let mut draft = draft(amounts, flat, rate);
    draft.records[0][3].clear();
    draft.records[1][3].clear();
    let mut book = Book::empty();
    assert_eq!(intake(&mut book, &draft), accepted(amounts.len() as u64, 2));
    assert_eq!(go_ahead(&mut book, "ZS1"), Answer::Done);
    for (title, money) in [(TITLE_K, Money::K), (TITLE_O, Money::O)] {
        let need = book.shipments[0].need(money);
        if need > 0 {
            assert_eq!(transfer(&mut book, title, need), Answer::Done);
        }
    }
    assert_eq!(pair(&mut book, "ZS1"), Answer::Paired);
    book
}

/// The fees of a shipment's orders.
fn fees(shipment: &Shipment) -> Vec<u64> {
    shipment.rows.iter().map(|row| row.fee.fee).collect()
}

/// Do the orders' fees wait?
fn fees_wait(shipment: &Shipment) -> Vec<bool> {
    let rows = shipment.rows.iter();
    rows.map(|row| row.state.waits(Money::O)).collect()
}

#[test]
fn worked_fees_and_remainders() {
    // Rate, amount, rated part, remainder.
    for (rate, amount, rated, remainder) in [
        (0, 1, 0, 0),
        (0, 9_999, 0, 0),
        (0, 10_000, 0, 0),
        (0, MOST, 0, 0),
        (1, 1, 0, 1),
        (1, 9_999, 0, 9_999),
        (1, 10_000, 1, 0),
        (1, 10_001, 1, 1),
        (1, MOST, 99_999, 9_999),
        (9_999, 1, 0, 9_999),
        (9_999, 2, 1, 9_998),
        (9_999, 9_999, 9_998, 1),
        (9_999, 10_000, 9_999, 0),
        (9_999, MOST, 999_899_999, 1),
        (10_000, 1, 1, 0),
        (10_000, 9_999, 9_999, 0),
        (10_000, 10_000, 10_000, 0),
        (10_000, MOST, MOST, 0),
        (125, 5_000, 62, 5_000),
        (5_000, 3, 1, 5_000),
    ] {
        for flat in [0, (MOST - rated) / 2, MOST - rated] {
            let fee = flat + rated;
            let tariff = Tariff { flat, rate };
            let worked = Fee { fee, remainder };
            assert_eq!(tariff.fee_of(amount), worked, "{rate} of {amount}");
            let book = waiting(&[amount], flat, rate);
            assert_eq!(book.shipments[0].tariff, tariff);
            assert_eq!(book.shipments[0].rows[0].fee, worked);
        }
    }
}

#[test]
fn refusal_906_at_its_edge() {
    for (amount, rate, rated) in [
        (10_000, 1, 1),
        (1, 10_000, 1),
        (MOST, 10_000, MOST),
        (MOST, 9_999, 999_899_999),
        (12_345, 6_789, 8_381),
    ] {
        let flat = MOST - rated;
        let book = waiting(&[amount], flat, rate);
        assert_eq!(fees(&book.shipments[0]), [MOST]);
        let above = draft(&[amount], flat + 1, rate);
        assert_eq!(above.judge(), Err(906), "{rate} of {amount}");
    }
    // What the whole part leaves does not count.
    let book = waiting(&[9_999], MOST, 1);
    assert_eq!(fees(&book.shipments[0]), [MOST]);
    // The largest fee that the ranges allow.
    assert_eq!(draft(&[MOST], MOST, 10_000).judge(), Err(906));
}

#[test]
fn refusal_906_asks_every_order() {
    // The third alone above, the second alone above.
    assert_eq!(draft(&[1, 2, 10_000], MOST, 1).judge(), Err(906));
    assert_eq!(draft(&[1, 10_000, 2], MOST, 1).judge(), Err(906));
    // "the need covers the whole file": a faulty order alone above.
    for faulty in 0..3 {
        let mut amounts = [1; 3];
        amounts[faulty] = 10_000;
        let mut draft = draft(&amounts, MOST, 1);
        draft.records[faulty][3].clear();
        assert_eq!(draft.judge(), Err(906), "order {}", faulty + 1);
        assert_eq!(draft.tariff(MOST - 1, 1).judge(), Ok((3, 1)));
    }
}

#[test]
fn refusal_906_goes_by_the_files_kind() {
    for kind in 0..5 {
        let mut draft = draft(&[10_000], 0, 0)
            .name(&format!("EPEZZS1-201007-A-{kind}"))
            .header(10, &kind.to_string());
        draft.profile.flat[kind] = MOST;
        // Every other kind's fee would be above.
        draft.profile.rates = [1; 5];
        draft.profile.rates[kind] = 0;
        for other in (0..5).filter(|other| *other != kind) {
            draft.profile.flat[other] = MOST;
        }
        assert_eq!(draft.judge(), Ok((1, 0)), "kind {kind}");
        draft.profile.rates[kind] = 1;
        assert_eq!(draft.judge(), Err(906), "kind {kind}");
    }
}

#[test]
fn refusal_906_comes_after_132_and_before_903() {
    let above = draft(&[10_000], MOST, 1);
    assert_eq!(above.clone().header(12, "100.01").judge(), Err(132));
    assert_eq!(above.judge(), Err(906));
    let mut full = Book::empty();
    for number in 0..32 {
        intake(&mut full, &Draft::many(&format!("AA{number}"), 64));
    }
    assert_eq!((full.shipments.len(), full.row_count()), (32, 2_048));
    assert_eq!(intake(&mut full, &above), refused(906));
    assert_eq!(intake(&mut full, &above.tariff(MOST, 0)), refused(903));
    // And before 904.
    let many = Draft::many("ZS1", 2_049);
    let mut book = Book::empty();
    assert_eq!(
        intake(&mut book, &many.clone().tariff(MOST, 10_000)),
        refused(906)
    );
    assert_eq!(
        intake(&mut book, &many.tariff(MOST - 1, 10_000)),
        refused(904)
    );
}

#[test]
fn refusal_907_at_its_edge() {
    for kind in 0..5 {
        for (rate, expected) in [
            (10_000, Ok((3, 1))),
            (10_001, Err(907)),
            (65_536, Err(907)),
            (u64::MAX, Err(907)),
        ] {
            // "any of the profile's rates", also one that no file goes by.
            let mut draft = Draft::zs1();
            draft.profile.rates[kind] = rate;
            assert_eq!(draft.judge(), expected, "{rate} of kind {kind}");
        }
    }
}

#[test]
fn refusal_907_comes_after_905_and_before_900() {
    let good = Draft::zs1();
    let mut bad_rate = good.clone();
    bad_rate.profile.rates[2] = 10_001;
    let mut unsound = zs1_waiting();
    unsound.shipments[0].rows.clear();
    assert_eq!(intake(&mut unsound, &good), refused(900));
    assert_eq!(intake(&mut unsound, &bad_rate), refused(907));
    // Each part of 905 comes first.
    for spoil in [
        |draft: &mut Draft| draft.profile.today = 20_210_229,
        |draft: &mut Draft| draft.profile.flat[4] = MOST + 1,
        |draft: &mut Draft| draft.profile.fields = 33,
    ] {
        let mut draft = bad_rate.clone();
        spoil(&mut draft);
        assert_eq!(intake(&mut unsound, &draft), refused(905));
    }
    // And it comes before the file is looked at.
    bad_rate.whole = Some(Vec::new());
    assert_eq!(bad_rate.judge(), Err(907));
}

#[test]
fn the_need_in_fees_is_their_sum() {
    // Each order has its own whole part: the rate of the whole sum would give a
    // grosz more.
    let book = waiting(&[5_000, 5_000, 4_999], 7, 1);
    let shipment = &book.shipments[0];
    assert_eq!(fees(shipment), [7, 7, 7]);
    assert_eq!(shipment.need(Money::O), 21);
    let book = waiting(&[20_000, 9_999, MOST], 7, 1);
    let shipment = &book.shipments[0];
    assert_eq!(fees(shipment), [9, 7, 100_006]);
    assert_eq!(shipment.need(Money::O), 100_022);
    assert_eq!(shipment.need(Money::K), 20_000 + 9_999 + MOST);
}

#[test]
fn the_largest_needs_with_a_rate() {
    let book = waiting(&[MOST; 2_048], 0, 10_000);
    let shipment = &book.shipments[0];
    assert_eq!(shipment.need(Money::O), 2_048 * MOST);
    assert_eq!(shipment.need(Money::K), 2_048 * MOST);
}

#[test]
fn short_and_pairing_go_by_the_sum_of_fees() {
    // Each fee leaves a remainder; the need is 96.
    let mut book = waiting(&[5_000, 10, 2_499], 1, 125);
    assert_eq!(fees(&book.shipments[0]), [63, 1, 32]);
    transfer(&mut book, TITLE_K, 7_508);
    assert_eq!(pair(&mut book, "ZS1"), Answer::Short { k: 1, o: 96 });
    transfer(&mut book, TITLE_O, 95);
    assert_eq!(pair(&mut book, "ZS1"), Answer::Short { k: 1, o: 1 });
    transfer(&mut book, TITLE_O, 1);
    assert_eq!(pair(&mut book, "ZS1"), Answer::Short { k: 1, o: 0 });
    transfer(&mut book, TITLE_K, 1);
    assert_eq!(pair(&mut book, "ZS1"), Answer::Paired);
    let shipment = &book.shipments[0];
    assert_eq!((shipment.free(Money::K), shipment.free(Money::O)), (0, 0));
    assert_eq!(shipment.held(Money::O), 96);
}

#[test]
fn fees_that_are_all_zero_need_no_transfer() {
    // The rate is above 0, the whole parts are not.
    let mut book = waiting(&[9_999, 1], 0, 1);
    transfer(&mut book, TITLE_K, 10_000);
    assert_eq!(pair(&mut book, "ZS1"), Answer::Paired);
    assert_eq!(post(&mut book, "ZS1", 1), Answer::FeeEarned(0));
}

#[test]
fn each_order_earns_and_returns_its_own_fee() {
    // Fees 3, 13, 23, 33, 43; orders 1 and 2 are faulty.
    let amounts = [1, 1_001, 2_001, 3_001, 4_001];
    let mut book = paired(&amounts, 3, 100);
    assert_eq!(fees(&book.shipments[0]), [3, 13, 23, 33, 43]);
    assert_eq!(book.shipments[0].held(Money::O), 115);
    assert_eq!(post(&mut book, "ZS1", 3), Answer::FeeEarned(23));
    assert_eq!(book.shipments[0].held(Money::O), 92);
    assert_eq!(post(&mut book, "ZS1", 5), Answer::FeeEarned(43));
    assert_eq!(pay(&mut book, "ZS1", 5), Answer::AmountPaid(4_001));
    assert_eq!(withdraw(&mut book, "ZS1", 4), Answer::Done);
    assert_eq!(give_back(&mut book, "ZS1", ZZR, O), returned(33, 1));
    assert_eq!(give_back(&mut book, "ZS1", ZZR, K), returned(3_001, 1));
    assert_eq!(give_back(&mut book, "ZS1", OPR, O), returned(16, 2));
    assert_eq!(give_back(&mut book, "ZS1", OPR, K), returned(1_002, 2));
    assert_eq!(mark_undelivered(&mut book, "ZS1", 3), Answer::Done);
    assert_eq!(give_back(&mut book, "ZS1", ZPR, K), returned(2_001, 1));
    assert_eq!(sheet(&book)[0].sums, [10_005, 0, 0, 10_005, 115, 0, 0, 115]);
}

#[test]
fn the_sheet_has_each_orders_own_fee() {
    let mut book = paired(&[1, 1_001, 2_001, 3_001, 4_001], 3, 100);
    transfer(&mut book, TITLE_O, 9);
    let fees_now = |book: &Book| -> Vec<u64> { sheet(book)[0].sums[4..].to_vec() };
    assert_eq!(fees_now(&book), [124, 115, 9, 0]);
    post(&mut book, "ZS1", 3);
    assert_eq!(fees_now(&book), [124, 92, 9, 23]);
    withdraw(&mut book, "ZS1", 4);
    assert_eq!(fees_now(&book), [124, 92, 9, 23]);
    give_back(&mut book, "ZS1", ZZR, O);
    assert_eq!(fees_now(&book), [124, 59, 9, 56]);
    give_back(&mut book, "ZS1", OPR, O);
    assert_eq!(fees_now(&book), [124, 43, 9, 72]);
    give_back(&mut book, "ZS1", ZWR, O);
    assert_eq!(fees_now(&book), [124, 43, 0, 81]);
}

#[test]
fn a_fee_of_zero_goes_back_among_others() {
    // Fees 0, 2, 0, 1: the faulty ones are of 0 and 2.
    let mut book = paired(&[9_999, 20_000, 1, 10_000], 0, 1);
    assert_eq!(fees(&book.shipments[0]), [0, 2, 0, 1]);
    assert_eq!(fees_wait(&book.shipments[0]), [true, true, false, false]);
    assert_eq!(give_back(&mut book, "ZS1", OPR, O), returned(2, 2));
    assert_eq!(fees_wait(&book.shipments[0]), [false; 4]);
    assert_eq!(give_back(&mut book, "ZS1", OPR, O), refused(23));
    // Likewise withdrawn ones.
    withdraw(&mut book, "ZS1", 3);
    withdraw(&mut book, "ZS1", 4);
    assert_eq!(give_back(&mut book, "ZS1", ZZR, O), returned(1, 2));
    assert_eq!(fees_wait(&book.shipments[0]), [false; 4]);
}

#[test]
fn fees_that_add_to_zero_are_23_and_wait_on() {
    // Fees 0, 0, 0, 1: nothing of the faulty orders is above zero.
    let mut book = paired(&[9_999, 5, 1, 10_000], 0, 1);
    assert_eq!(give_back(&mut book, "ZS1", OPR, O), refused(23));
    assert_eq!(fees_wait(&book.shipments[0]), [true, true, false, false]);
    withdraw(&mut book, "ZS1", 3);
    assert_eq!(give_back(&mut book, "ZS1", ZZR, O), refused(23));
    assert_eq!(fees_wait(&book.shipments[0]), [true, true, true, false]);
    // With one that is, the order of fee 0 that waited is cleared and counted.
    withdraw(&mut book, "ZS1", 4);
    assert_eq!(give_back(&mut book, "ZS1", ZZR, O), returned(1, 2));
    assert_eq!(fees_wait(&book.shipments[0]), [true, true, false, false]);
    // Their amounts go back as ever.
    assert_eq!(give_back(&mut book, "ZS1", OPR, K), returned(10_004, 2));
}

#[test]
fn the_division_adds_up_in_every_shipment() {
    // "For every shipment, 10,000 times the sum of the rated parts plus the sum
    // of the remainders equals the rate times the sum of the amounts."
    let amounts = [1, 9_999, 10_000, 33_333, 123_456_789, MOST];
    for rate in [0, 1, 7, 125, 3_333, 9_999, 10_000] {
        for flat in [0, 350] {
            let fits = rate < 10_000 || flat == 0;
            let amounts = if fits { &amounts[..] } else { &amounts[..5] };
            let book = waiting(amounts, flat, rate);
            let rows = &book.shipments[0].rows;
            let rated: u64 = rows.iter().map(|row| row.fee.fee - flat).sum();
            let remainders: u64 = rows.iter().map(|row| row.fee.remainder).sum();
            let amounts: u64 = amounts.iter().sum();
            assert_eq!(10_000 * rated + remainders, rate * amounts);
        }
    }
}

/// A shipment of two orders with this rate, spoilt so, which must not be sound in
/// any stage.
fn spoilt(rate: u64, what: &str, spoil: impl Fn(&mut Shipment)) {
    let mut waiting = waiting(&[20_000, 30_001], 350, rate);
    transfer(&mut waiting, TITLE_K, CAP);
    transfer(&mut waiting, TITLE_O, CAP);
    let mut closed = waiting.clone();
    close(&mut closed, "ZS1");
    let mut paired = waiting.clone();
    pair(&mut paired, "ZS1");
    for mut book in [waiting, closed, paired] {
        assert!(book.is_sound());
        spoil(&mut book.shipments[0]);
        assert!(!book.is_sound(), "{what}: {:?}", book.shipments[0]);
        assert_eq!(close(&mut book, "ZS1"), refused(10), "{what}");
        assert_eq!(intake(&mut book, &Draft::many("ZS9", 1)), refused(900));
    }
}

#[test]
fn a_sound_book_is_one_in_which_the_division_holds() {
    for rate in [0, 1, 5_000, 10_000] {
        spoilt(rate, "flat part more", |s| s.tariff.flat += 1);
        spoilt(rate, "flat part less", |s| s.tariff.flat -= 1);
        spoilt(rate, "rate more", |s| s.tariff.rate += 1);
        spoilt(rate, "fee more", |s| s.rows[1].fee.fee += 1);
        spoilt(rate, "fee less", |s| s.rows[1].fee.fee -= 1);
        spoilt(rate, "fee below the flat part", |s| s.rows[0].fee.fee = 349);
        spoilt(rate, "remainder more", |s| s.rows[0].fee.remainder += 1);
        // The same sum, otherwise parted.
        spoilt(rate, "a grosz in the remainder", |s| {
            s.rows[1].fee.fee -= 1;
            s.rows[1].fee.remainder += 10_000;
        });
    }
    for rate in [1, 5_000] {
        // The sums of the shipment would still hold.
        spoilt(rate, "two remainders", |s| {
            s.rows[0].fee.remainder += 1;
            s.rows[1].fee.remainder -= 1;
        });
    }
    for rate in [1, 5_000, 10_000] {
        spoilt(rate, "rate less", |s| s.tariff.rate -= 1);
        spoilt(rate, "amount more", |s| s.rows[0].amount += 1);
        spoilt(rate, "amount less", |s| s.rows[0].amount -= 1);
    }
    // With the rate 0 any amount does, as before A5.
    let mut book = waiting(&[20_000, 30_001], 350, 0);
    book.shipments[0].rows[0].amount += 1;
    assert!(book.is_sound());
}

#[test]
fn a_sound_book_has_tariffs_and_fees_in_their_ranges() {
    // Numbers for which the division would hold.
    spoilt(0, "flat part above", |s| {
        s.tariff.flat = MOST + 1;
        s.rows.iter_mut().for_each(|row| row.fee.fee = MOST + 1);
    });
    spoilt(0, "rate above", |s| {
        s.tariff.rate = 10_001;
        let tariff = s.tariff;
        for row in &mut s.rows {
            row.fee = tariff.fee_of(row.amount);
        }
    });
    spoilt(1, "fee above", |s| {
        s.tariff.flat = MOST - 2;
        let tariff = s.tariff;
        for row in &mut s.rows {
            row.fee = tariff.fee_of(row.amount);
        }
    });
    spoilt(10_000, "remainder of 10,000", |s| {
        s.rows[0].fee = Fee {
            fee: s.rows[0].fee.fee - 1,
            remainder: 10_000,
        }
    });
}

#[test]
fn with_the_rate_0_the_book_is_as_before() {
    // ZS1's table by its own lines is in zs1.rs; here the same with every flat
    // part that a fee could have been.
    for flat in [0, 1, 350, MOST] {
        let mut book = Book::empty();
        intake(&mut book, &Draft::zs1().tariff(flat, 0));
        let shipment = &book.shipments[0];
        assert_eq!(fees(shipment), [flat; 3]);
        assert!(shipment.rows.iter().all(|row| row.fee.remainder == 0));
        assert_eq!(shipment.need(Money::O), 3 * flat);
        assert_eq!(shipment.need(Money::K), 17_550);
    }
}
