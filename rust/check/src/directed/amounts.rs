//! The amount that makes a total with its fee (document 02, A6): the readings'
//! table; flat parts, rates and totals at and beside their edges; the first and the
//! last amount, and fees at the cap and above, with the totals beside theirs; and
//! every total of amounts in a row, held to the amounts themselves.

use super::fees::WORKED;
use crate::amounts::{total_of, Asked, Found};
use crate::coverage::Coverage;
use reference::{Tariff, MOST_AMOUNT as MOST, MOST_RATE};
use std::collections::BTreeMap;
use std::ops::RangeInclusive;

/// Asks for every such amount.
pub fn check(coverage: &mut Coverage) {
    worked(coverage);
    ranges(coverage);
    first_and_last(coverage);
    fees_at_the_cap(coverage);
    every_total(coverage);
}

/// The readings' table: flat part, rate, total, and the amount or none.
const TABLE: [(u64, u64, u64, Option<u64>); 6] = [
    (350, 0, 10_350, Some(10_000)),
    (0, 10_000, 3, None),
    (0, 10_000, 1_999_999_998, Some(999_999_999)),
    (1, 10_000, 1_999_999_999, None),
    (5, 0, 5, None),
    (5, 0, 0, None),
];

/// Asks for an amount, whose answer is known.
fn expect(asked: Asked, expected: Found, coverage: &mut Coverage) {
    assert_eq!(asked.found(coverage), expected, "{asked}");
}

/// What is asked with this tariff.
fn of(tariff: Tariff, total: u64) -> Asked {
    let Tariff { flat, rate } = tariff;
    Asked { flat, rate, total }
}

/// Each row of the table.
fn worked(coverage: &mut Coverage) {
    for (flat, rate, total, amount) in TABLE {
        expect(Asked { flat, rate, total }, Ok(amount), coverage);
    }
}

/// Flat parts and rates at 0, at their caps, above them and at the end of the
/// numbers, each with each, 907 before 905; with totals at their own edges.
fn ranges(coverage: &mut Coverage) {
    let flats = [0, 1, 350, MOST, MOST + 1, 1 << 32, 1 << 63, u64::MAX];
    let rates = [0, 1, 125, 10_000, 10_001, 65_536, 1 << 32, u64::MAX];
    for (flat, rate) in flats
        .into_iter()
        .flat_map(|flat| rates.map(|rate| (flat, rate)))
    {
        for total in totals(flat) {
            let asked = Asked { flat, rate, total };
            if rate > MOST_RATE {
                expect(asked, Err(907), coverage);
            } else if flat > MOST {
                expect(asked, Err(905), coverage);
            } else {
                asked.found(coverage).expect("both are in their ranges");
            }
        }
    }
}

/// Totals at an end of what can be made with a flat part, and at the ends of the
/// numbers.
fn totals(flat: u64) -> [u64; 14] {
    [
        0,
        1,
        flat.wrapping_sub(1),
        flat,
        flat.wrapping_add(1),
        flat.wrapping_add(2),
        MOST,
        MOST + 1,
        2 * MOST - 1,
        2 * MOST,
        2 * MOST + 1,
        3 * MOST,
        (1 << 32) + 1,
        u64::MAX,
    ]
}

/// Tariffs by which every amount's fee is within its cap.
const TARIFFS: [(u64, u64); 9] = [
    (0, 0),
    (350, 0),
    (MOST, 0),
    (0, 1),
    (350, 125),
    (1, 5_000),
    (0, 9_999),
    (100_000, 9_999),
    (0, 10_000),
];

/// The totals of the amounts 1 and 999,999,999, which are the lowest and the
/// highest that there are, and those beside them.
fn first_and_last(coverage: &mut Coverage) {
    for (flat, rate) in TARIFFS {
        let tariff = Tariff { flat, rate };
        let [first, last] = [1, MOST].map(|amount| total_of(tariff, amount));
        expect(of(tariff, first), Ok(Some(1)), coverage);
        expect(of(tariff, last), Ok(Some(MOST)), coverage);
        for none in [first - 1, last + 1, last + 2] {
            expect(of(tariff, none), Ok(None), coverage);
        }
        let second = (total_of(tariff, 2) == first + 1).then_some(2);
        expect(of(tariff, first + 1), Ok(second), coverage);
        let before = (total_of(tariff, MOST - 1) == last - 1).then_some(MOST - 1);
        expect(of(tariff, last - 1), Ok(before), coverage);
    }
}

/// Each worked fee made the most that there may be, by its flat part, and a grosz
/// more: then no amount makes the total, nor a higher one.
fn fees_at_the_cap(coverage: &mut Coverage) {
    for (rate, amount, rated, _) in WORKED {
        let most = Tariff {
            flat: MOST - rated,
            rate,
        };
        let total = amount + MOST;
        expect(of(most, total), Ok(Some(amount)), coverage);
        for beside in [total - 2, total - 1, total + 1, total + 2] {
            of(most, beside)
                .found(coverage)
                .expect("both are in their ranges");
        }
        if rated > 0 {
            let flat = MOST - rated + 1;
            let above = Tariff { flat, rate };
            for total in [total + 1, total + 2, total + 3, 2 * MOST + 1] {
                expect(of(above, total), Ok(None), coverage);
            }
        }
    }
}

/// Every total of amounts in a row: the lowest, some about a product of 10,000, and
/// the highest; with fees of many rates, and with such that the cap lies among them.
fn every_total(coverage: &mut Coverage) {
    for rate in [
        0, 1, 2, 3, 99, 125, 2_500, 3_333, 4_999, 5_000, 5_001, 6_667, 9_998, 9_999, 10_000,
    ] {
        for amounts in [1..=2_000, 9_000..=11_000, MOST - 1_000..=MOST] {
            let middle = (amounts.start() + amounts.end()) / 2;
            let room = MOST - middle * rate / 10_000;
            for flat in [0, 350, room] {
                totals_of(Tariff { flat, rate }, amounts.clone(), coverage);
            }
        }
    }
}

/// Each total from that of the first of these amounts to that of the last: it is
/// made by the one amount whose it is, where its fee is within the cap, and else by
/// none.
fn totals_of(tariff: Tariff, amounts: RangeInclusive<u64>, coverage: &mut Coverage) {
    let [first, last] = [amounts.start(), amounts.end()].map(|amount| total_of(tariff, *amount));
    let usable = amounts.filter(|amount| tariff.fee_of(*amount).fee <= MOST);
    let makers: BTreeMap<u64, u64> = usable
        .map(|amount| (total_of(tariff, amount), amount))
        .collect();
    for total in first..=last {
        let amount = makers.get(&total).copied();
        expect(of(tariff, total), Ok(amount), coverage);
    }
}
