//! "What amount makes this total?" (document 02, A6): the readings' table, both
//! caps from either side, 907 before 905, and every small total by looking at every
//! amount.

use crate::helpers::*;
use reference::{amount_for, Book, Tariff};

/// The most that an amount, a flat part and a fee may be.
const MOST: u64 = 999_999_999;

/// An amount with its fee, by this flat part and rate.
fn total_of(flat: u64, rate: u64, amount: u64) -> u64 {
    amount + Tariff { flat, rate }.fee_of(amount).fee
}

/// All amounts from 1 to this one that make the total, by looking at each. (Of
/// fees that are not near the cap.)
fn all_that_make(flat: u64, rate: u64, total: u64, most: u64) -> Vec<u64> {
    let amounts = (1..=most).filter(|amount| total_of(flat, rate, *amount) == total);
    amounts.collect()
}

#[test]
fn the_readings_table() {
    for (flat, rate, total, amount) in [
        (350, 0, 10_350, Some(10_000)),
        // 1 makes 2, 2 makes 4.
        (0, 10_000, 3, None),
        (0, 10_000, 1_999_999_998, Some(MOST)),
        // The fee of 999,999,999 is above the cap.
        (1, 10_000, 1_999_999_999, None),
        // Amount 0 is no amount.
        (5, 0, 5, None),
        (5, 0, 0, None),
    ] {
        let found = amount_for(flat, rate, total);
        assert_eq!(found, Ok(amount), "{flat}, {rate}, {total}");
    }
}

#[test]
fn the_rate_is_asked_before_the_flat_part() {
    for total in [0, 1, 351, 1_999_999_998, 1_999_999_999, u64::MAX] {
        for flat in [0, MOST, MOST + 1, u64::MAX] {
            for rate in [10_001, 65_536, u64::MAX] {
                assert_eq!(amount_for(flat, rate, total), Err(907), "{flat}, {rate}");
            }
        }
        for rate in [0, 1, 10_000] {
            for flat in [MOST + 1, 1 << 32, u64::MAX] {
                assert_eq!(amount_for(flat, rate, total), Err(905), "{flat}, {rate}");
            }
            for flat in [0, MOST] {
                assert!(amount_for(flat, rate, total).is_ok(), "{flat}, {rate}");
            }
        }
    }
}

#[test]
fn every_small_total_by_looking_at_every_amount() {
    let (mut found, mut none) = (0, 0);
    for rate in [
        0, 1, 99, 100, 101, 2_500, 3_333, 5_000, 6_667, 9_999, 10_000,
    ] {
        for flat in [0, 1, 2, 7] {
            for total in 0..=400 {
                let all = all_that_make(flat, rate, total, 500);
                // "no second amount does when one is found"
                assert!(all.len() <= 1, "{flat}, {rate}, {total}: {all:?}");
                let amount = all.first().copied();
                assert_eq!(amount_for(flat, rate, total), Ok(amount));
                found += u64::from(amount.is_some());
                none += u64::from(amount.is_none());
            }
        }
    }
    assert!(found > 1_000 && none > 1_000, "{found} found, {none} not");
}

#[test]
fn totals_that_are_passed_over() {
    // At a rate of 2,500 each fourth grosz of the amount adds two to the total.
    for (total, amount) in [
        (1, Some(1)),
        (2, Some(2)),
        (3, Some(3)),
        (4, None),
        (5, Some(4)),
        (8, Some(7)),
        (9, None),
        (10, Some(8)),
    ] {
        assert_eq!(amount_for(0, 2_500, total), Ok(amount), "{total}");
    }
    // At 10,000 every second one is.
    for (flat, amount) in [(0, 1), (0, 2), (0, MOST - 1), (350, 1), (350, MOST - 350)] {
        let total = flat + 2 * amount;
        assert_eq!(amount_for(flat, 10_000, total), Ok(Some(amount)));
        assert_eq!(amount_for(flat, 10_000, total - 1), Ok(None));
        assert_eq!(amount_for(flat, 10_000, total + 1), Ok(None));
    }
}

#[test]
fn the_first_and_the_last_amount() {
    for (flat, rate, first, last) in [
        (0, 0, 1, 999_999_999),
        (0, 1, 1, 1_000_099_998),
        (350, 125, 351, 1_012_500_348),
        (100_000, 9_999, 100_001, 1_999_999_998),
        (0, 10_000, 2, 1_999_999_998),
        (MOST, 0, 1_000_000_000, 1_999_999_998),
    ] {
        assert_eq!(amount_for(flat, rate, first), Ok(Some(1)), "{flat}, {rate}");
        assert_eq!(amount_for(flat, rate, first - 1), Ok(None));
        assert_eq!(amount_for(flat, rate, last), Ok(Some(MOST)));
        for beyond in [last + 1, last + 2, 1 << 32, u64::MAX] {
            assert_eq!(amount_for(flat, rate, beyond), Ok(None), "{beyond}");
        }
    }
}

#[test]
fn a_fee_above_the_cap_makes_an_amount_unusable() {
    // The flat part leaves room for a rated part of 0, of 1, of 5,000.
    for (flat, rate, amount) in [
        (MOST, 1, 9_999),
        (MOST - 1, 1, 19_999),
        (MOST, 9_999, 1),
        (MOST - 5_000, 5_000, 10_001),
    ] {
        let total = total_of(flat, rate, amount);
        assert_eq!(total, amount + MOST);
        assert_eq!(amount_for(flat, rate, total), Ok(Some(amount)));
        // The next grosz of the amount is one of the fee too.
        assert_eq!(total_of(flat, rate, amount + 1), total + 2);
        for above in total + 1..total + 100 {
            assert_eq!(amount_for(flat, rate, above), Ok(None), "{flat}, {rate}");
        }
    }
    // No amount at all is usable.
    for total in 0..100 {
        assert_eq!(amount_for(MOST, 10_000, MOST + total), Ok(None));
    }
}

#[test]
fn an_order_that_is_taken_in_makes_its_total() {
    let texts = ["100.01", "50.00", "0.01", "9999999.99", "0.99", "123456.78"];
    for (flat, rate) in [(0, 0), (350, 0), (350, 125), (1, 9_999), (0, 10_000)] {
        let draft = Draft::new("ZS1", &texts).tariff(flat, rate);
        let mut book = Book::empty();
        assert_eq!(intake(&mut book, &draft), accepted(6, 0));
        for row in &book.shipments[0].rows {
            let found = amount_for(flat, rate, row.amount + row.fee.fee);
            assert_eq!(found, Ok(Some(row.amount)), "{flat}, {rate}");
        }
    }
}
