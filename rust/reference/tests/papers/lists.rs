//! Demand 3 over lists of calls made by a simple fixed sequence of numbers:
//! transfers accepted equal held plus free plus left, the sheet says the same,
//! nothing leaves twice, refused calls and other shipments' calls move nothing.

use crate::helpers::*;
use reference::{Answer, Book, Call, Money, SheetRow, Shipment, Tariff};
use std::collections::HashSet;

/// A plain linear congruential sequence.
struct Numbers(u64);

impl Numbers {
    fn below(&mut self, limit: u64) -> u64 {
        self.0 = self
            .0
            .wrapping_mul(6_364_136_223_846_793_005)
            .wrapping_add(1_442_695_040_888_963_407);
        (self.0 >> 33) % limit
    }
}

const IDENTIFIERS: [&str; 4] = ["ZS1", "ZS2", "ZS3", "ZS4"];
const MONEYS: [Money; 2] = [Money::K, Money::O];

fn some_call(numbers: &mut Numbers) -> (usize, Call) {
    let which = numbers.below(IDENTIFIERS.len() as u64) as usize;
    let name = IDENTIFIERS[which];
    let identifier = name.as_bytes().to_vec();
    let order = numbers.below(5);
    let call = match numbers.below(24) {
        0 => {
            let mut draft = Draft::new(name, &["100.00", "50.00", "25.50"]);
            // Some orders faulty, some files refused; fees of all orders alike,
            // none, the rated part alone (some of them zero) or both parts.
            for record in &mut draft.records {
                if numbers.below(4) == 0 {
                    record[3].clear();
                }
            }
            let tariffs = [(350, 0), (0, 0), (0, 1), (7, 9_999)];
            let (flat, rate) = tariffs[numbers.below(4) as usize];
            draft = draft.tariff(flat, rate);
            if numbers.below(4) == 0 {
                draft.header[11] = "175.51".into();
            }
            draft.intake()
        }
        1..=4 => {
            let money = ["K", "O"][numbers.below(2) as usize];
            let date = ["201007", "20201007"][numbers.below(2) as usize];
            Call::Transfer {
                title: format!("EPEZ{name}-{date}-A-0-{money}").into_bytes(),
                amount: numbers.below(12_000),
            }
        }
        5 => Call::GoAhead { identifier },
        6 | 7 => Call::Pair { identifier },
        8 if numbers.below(16) == 0 => Call::Close { identifier },
        8..=10 => Call::Post { identifier, order },
        11 | 12 => Call::Pay { identifier, order },
        13 => Call::MarkUndelivered { identifier, order },
        14 | 15 => Call::Withdraw { identifier, order },
        _ => Call::Return {
            identifier,
            route: numbers.below(5),
            money: numbers.below(3),
        },
    };
    (which, call)
}

/// Accepted, held and free, zero before intake.
fn sums(book: &Book, name: &str, money: Money) -> (u64, u64, u64) {
    match book.shipment(name.as_bytes()) {
        None => (0, 0, 0),
        Some(s) => (s.accepted(money), s.held(money), s.free(money)),
    }
}

/// The sheet's four sums of a money, zero before intake.
fn on_the_sheet(rows: &[SheetRow], name: &str, place: usize) -> [u64; 4] {
    match rows.iter().find(|row| row.identifier == name.as_bytes()) {
        None => [0; 4],
        Some(row) => std::array::from_fn(|sum| row.sums[4 * place + sum]),
    }
}

/// "For every shipment, 10,000 times the sum of the rated parts plus the sum of
/// the remainders equals the rate times the sum of the amounts."
fn hold_the_sum_law(shipment: &Shipment) {
    let Tariff { flat, rate } = shipment.tariff;
    let rows = shipment.rows.iter();
    let parts = rows.map(|row| 10_000 * (row.fee.fee - flat) + row.fee.remainder);
    let amounts = shipment.need(Money::K);
    assert_eq!(parts.sum::<u64>(), rate * amounts);
}

/// Which orders' money waits, for the rule that none leaves twice.
fn waiting(shipment: &Shipment, money: Money) -> Vec<usize> {
    (0..shipment.rows.len())
        .filter(|index| shipment.rows[*index].state.waits(money))
        .collect()
}

#[test]
fn money_is_conserved_over_lists_of_calls() {
    let mut payouts = 0;
    let mut route_returns = [0; 4];
    for seed in 0..40 {
        let mut numbers = Numbers(seed);
        let mut book = Book::empty();
        // Per shipment and money: transfers in and all that left, by the
        // answers alone.
        let mut came = [[0u64; 2]; 4];
        let mut left = [[0u64; 2]; 4];
        let mut gone: HashSet<(usize, usize, usize)> = HashSet::new();
        for _ in 0..1_200 {
            let (which, call) = some_call(&mut numbers);
            let before = book.clone();
            let answer = ask(&mut book, &call);
            match (&call, answer) {
                (Call::Transfer { title, amount }, Answer::Done) => {
                    let money = usize::from(title.ends_with(b"-O"));
                    came[which][money] += amount;
                }
                (Call::Post { order, .. }, Answer::FeeEarned(fee)) => {
                    left[which][1] += fee;
                    assert!(gone.insert((which, *order as usize - 1, 1)));
                }
                (Call::Pay { order, .. }, Answer::AmountPaid(amount)) => {
                    left[which][0] += amount;
                    assert!(gone.insert((which, *order as usize - 1, 0)));
                    payouts += 1;
                }
                (Call::Return { route, money, .. }, Answer::Returned { sum, count }) => {
                    route_returns[*route as usize] += 1;
                    let place = *money as usize;
                    left[which][place] += sum;
                    let identifier = IDENTIFIERS[which].as_bytes();
                    let then = waiting(before.shipment(identifier).unwrap(), MONEYS[place]);
                    let now = waiting(book.shipment(identifier).unwrap(), MONEYS[place]);
                    let ended: Vec<usize> =
                        then.into_iter().filter(|row| !now.contains(row)).collect();
                    assert_eq!(ended.len() as u64, count);
                    for row in ended {
                        assert!(gone.insert((which, row, place)));
                    }
                }
                _ => {}
            }
            // A list goes on in the book that its stored bytes give back.
            book = Book::unstored(&book.stored()).expect("a stored sound book");
            book.shipments.iter().for_each(hold_the_sum_law);
            let rows = sheet(&book);
            for (other, name) in IDENTIFIERS.iter().enumerate() {
                for (place, money) in MONEYS.into_iter().enumerate() {
                    let (accepted, held, free) = sums(&book, name, money);
                    assert_eq!(accepted, came[other][place]);
                    assert_eq!(accepted, held + free + left[other][place]);
                    assert_eq!(
                        on_the_sheet(&rows, name, place),
                        [accepted, held, free, left[other][place]]
                    );
                    if other != which {
                        assert_eq!(
                            sums(&before, name, money),
                            (accepted, held, free),
                            "{call:?} moved {name}"
                        );
                    }
                }
            }
        }
    }
    // The lists do come as far as payouts and returns by every route.
    assert!(payouts > 100, "{payouts}");
    assert!(
        route_returns.iter().all(|count| *count > 30),
        "{route_returns:?}"
    );
}
