//! The refusals 10 to 24 of the book's calls, and what the calls do.

use crate::helpers::*;
use reference::{Answer, Book, Call, Money, Stage, State, Waits};

const TITLE_K: &str = "EPEZZS1-201007-A-0-K";
const TITLE_O: &str = "EPEZZS1-201007-A-0-O";

/// What a test does to a book first.
type Change = fn(&mut Book);

/// A call of every kind but intake, each with arguments that refuse later.
fn every_call(identifier: &str) -> Vec<Call> {
    let identifier = identifier.as_bytes().to_vec();
    let id = || identifier.clone();
    let mut calls = vec![
        Call::GoAhead { identifier: id() },
        Call::Pair { identifier: id() },
        Call::Close { identifier: id() },
    ];
    for order in [0, 1, u64::MAX] {
        calls.push(Call::Post {
            identifier: id(),
            order,
        });
        calls.push(Call::Pay {
            identifier: id(),
            order,
        });
        calls.push(Call::MarkUndelivered {
            identifier: id(),
            order,
        });
        calls.push(Call::Withdraw {
            identifier: id(),
            order,
        });
    }
    for route in [0, 1, 2, 3, 4, u64::MAX] {
        for money in [0, 1, 2, u64::MAX] {
            calls.push(Call::Return {
                identifier: id(),
                route,
                money,
            });
        }
    }
    calls
}

#[test]
fn refusal_10_unsound() {
    let spoilers: Vec<(&str, Change)> = vec![
        ("identifier", |b| {
            b.shipments[0].name.identifier = b"Z1".to_vec()
        }),
        ("date", |b| b.shipments[0].name.date = 20_210_229),
        ("payment", |b| b.shipments[0].name.payment = b'C'),
        ("kind", |b| b.shipments[0].name.kind = 5),
        ("flat part", |b| b.shipments[0].tariff.flat = 1_000_000_000),
        ("rate", |b| b.shipments[0].tariff.rate = 10_001),
        ("fee", |b| b.shipments[0].rows[0].fee.fee = 351),
        ("remainder", |b| b.shipments[0].rows[0].fee.remainder = 1),
        ("accepted K", |b| b.shipments[0].accepted_k = CAP + 1),
        ("accepted O", |b| b.shipments[0].accepted_o = CAP + 1),
        ("surplus K", |b| b.shipments[0].returned_k = CAP + 1),
        ("surplus O", |b| b.shipments[0].returned_o = CAP + 1),
        ("amount 0", |b| b.shipments[0].rows[0].amount = 0),
        ("amount above", |b| {
            b.shipments[0].rows[0].amount = 1_000_000_000;
            b.shipments[0].accepted_k = CAP;
        }),
        ("no order", |b| b.shipments[0].rows.clear()),
        ("fault 0", |b| {
            b.shipments[0].rows[1].state = State::Faulty {
                fault: 0,
                waits: Waits::BOTH,
            }
        }),
        ("fault 11", |b| {
            b.shipments[0].rows[1].state = State::Faulty {
                fault: 11,
                waits: Waits::BOTH,
            }
        }),
        ("same identifier", |b| {
            let mut other = b.shipments[0].clone();
            other.name.kind = 1;
            b.shipments.push(other);
        }),
        ("33 shipments", |b| {
            for number in 0..32 {
                let mut other = b.shipments[0].clone();
                other.name.identifier = format!("AA{number}").into_bytes();
                b.shipments.push(other);
            }
        }),
        ("2,049 rows", |b| {
            let row = b.shipments[0].rows[0].clone();
            b.shipments[0].rows.resize(2_049, row);
            b.shipments[0].accepted_k = CAP;
            b.shipments[0].accepted_o = CAP;
        }),
        ("Posted while Waiting", |b| {
            b.shipments[0].stage = Stage::Waiting;
            b.shipments[0].rows[0].state = State::Posted;
        }),
        ("Withdrawn while Closed", |b| {
            b.shipments[0].stage = Stage::Closed;
            b.shipments[0].rows[0].state = State::Withdrawn { waits: Waits::BOTH };
        }),
        ("K waits no more while Closed", |b| {
            b.shipments[0].stage = Stage::Closed;
            b.shipments[0].rows[1].state = State::Faulty {
                fault: 1,
                waits: Waits { k: false, o: true },
            };
        }),
        ("go-ahead without faults", |b| {
            b.shipments[0].rows[1].state = State::Open;
        }),
        ("Paired with faults, no go-ahead", |b| {
            b.shipments[0].go_ahead = false
        }),
        ("need not covered", |b| b.shipments[0].accepted_k -= 1),
        ("surplus not covered", |b| b.shipments[0].returned_o = 1),
        ("surplus not covered, Closed", |b| {
            b.shipments[0].stage = Stage::Closed;
            b.shipments[0].returned_k = 17_551;
        }),
        ("surplus while Waiting", |b| {
            b.shipments[0].stage = Stage::Waiting;
            b.shipments[0].returned_k = 1;
        }),
    ];
    for (what, spoil) in spoilers {
        let mut book = zs1_paired();
        assert!(book.is_sound());
        spoil(&mut book);
        assert!(!book.is_sound(), "{what}");
        for call in every_call("ZS1") {
            assert_eq!(ask(&mut book, &call), refused(10), "{what}");
        }
        assert_eq!(transfer(&mut book, "", 0), refused(10), "{what}");
        assert_eq!(intake(&mut book, &Draft::many("ZS9", 1)), refused(900));
    }
}

#[test]
fn refusal_11_title() {
    let mut book = zs1_waiting();
    for title in [
        "",
        "-K",
        "EPEZZS1-201007-A-0",
        "EPEZZS1-201007-A-0-",
        "EPEZZS1-201007-A-0-k",
        "EPEZZS1-201007-A-0-X",
        "EPEZZS1-201007-A-0K",
        "EPEZZS1-201007-A-0-K ",
        " EPEZZS1-201007-A-0-K",
        "EPEZZS1-201007-A-0-K-K",
        "EPEZZS1-201007-A-0-KO",
        "EPEZZS1-200931-A-0-K",
        "EPEZZS-201007-A-0-K",
        "EPEPZS1-201007-A-0-K",
        "EPFZZS1-201007-A-0-K",
        "EPEZZS1-201007-C-0-K",
        "EPEZZS1-201007-A-5-K",
        "EPEZZS1-201007-A-K",
    ] {
        // 11 is asked before 12 and 13.
        assert_eq!(transfer(&mut book, title, 0), refused(11), "{title}");
        assert_eq!(transfer(&mut book, title, 1), refused(11), "{title}");
    }
}

/// Titles that are nearly long ones, or long ones of nearly a shipment.
const NEARLY_LONG: &[&str] = &[
    // "another eight is 11"
    "EPEZZS1-19201007-A-0-K",
    "EPEZZS1-21201007-A-0-K",
    "EPEZZS1-02201007-A-0-K",
    "EPEZZS1-20200230-A-0-K",
    "EPEZZS1-20210229-A-0-K",
    "EPEZZS1-20201307-A-0-K",
    "EPEZZS1-2020100x-A-0-K",
    "EPEZZS1-20x01007-A-0-K",
    "EPEZZS1-20-201007-A-0-K",
    "EPEZZS1-2020-1007-A-0-K",
    // Seven, nine, ten and fourteen digits, and a long date cut to six.
    "EPEZZS1-2020107-A-0-K",
    "EPEZZS1-2201007-A-0-K",
    "EPEZZS1-020201007-A-0-K",
    "EPEZZS1-202010070-A-0-K",
    "EPEZZS1-2020201007-A-0-K",
    "EPEZZS1-20201007120000-A-0-K",
    "EPEZZS1-202010-A-0-K",
    // A good long date in a title that is spoilt elsewhere.
    "20201007-A-0-K",
    "-20201007-A-0-K",
    "EPEZZS1-20201007",
    "EPEZZS1-20201007-K",
    "EPEZZS1-20201007-A-0",
    "EPEZZS1-20201007-A-0-k",
    "EPEZZS1-20201007-A-0-K-K",
    "EPEZZS1-20201007-C-0-K",
    "EPEZZS1-20201007-A-5-K",
    "EPEZZS1--20201007-A-0-K",
    "EPEZZS1-20201007--A-0-K",
    "EP-EZZS1-20201007-A-0-K",
    "EPEZZS1-A-20201007-0-K",
];

#[test]
fn refusal_11_long_title() {
    let mut book = zs1_waiting();
    for title in NEARLY_LONG {
        assert_eq!(transfer(&mut book, title, 0), refused(11), "{title}");
        assert_eq!(transfer(&mut book, title, 1), refused(11), "{title}");
    }
}

#[test]
fn a_long_title_is_the_short_one() {
    let mut book = zs1_waiting();
    let long = "EPEZZS1-20201007-A-0-O";
    for amount in [0, CAP + 1] {
        assert_eq!(transfer(&mut book, long, amount), refused(12));
    }
    for title in [
        "EPEZZS2-20201007-A-0-O",
        "EPEZZS1-20201008-A-0-O",
        "EPEZZS1-20201007-B-0-O",
        "EPEZZS1-20201007-A-1-O",
    ] {
        assert_eq!(transfer(&mut book, title, 0), refused(12), "{title}");
        assert_eq!(transfer(&mut book, title, 1), refused(13), "{title}");
    }
    // "money booked through a long title is counted like any other"
    assert_eq!(transfer(&mut book, long, 1_049), Answer::Done);
    assert_eq!(transfer(&mut book, TITLE_O, 1), Answer::Done);
    assert_eq!(book.shipments[0].accepted_o, 1_050);
    assert_eq!(book.shipments[0].accepted_k, 0);
    assert_eq!(transfer(&mut book, long, CAP - 1_049), refused(14));
    assert_eq!(transfer(&mut book, long, CAP - 1_050), Answer::Done);
}

#[test]
fn refusal_12_amount() {
    let mut book = zs1_waiting();
    for amount in [0, CAP + 1, u64::MAX] {
        assert_eq!(transfer(&mut book, TITLE_K, amount), refused(12));
        // 12 is asked before 13.
        assert_eq!(
            transfer(&mut book, "EPEZZS2-201007-A-0-K", amount),
            refused(12)
        );
    }
    assert_eq!(transfer(&mut book, TITLE_K, 1), Answer::Done);
    assert_eq!(transfer(&mut book, TITLE_O, CAP), Answer::Done);
    assert_eq!(book.shipments[0].accepted_k, 1);
    assert_eq!(book.shipments[0].accepted_o, CAP);
}

#[test]
fn refusal_13_name() {
    let mut book = zs1_waiting();
    for title in [
        "EPEZZS2-201007-A-0-K",
        "EPEZzs1-201007-A-0-K",
        "EPEZZS1-201008-A-0-K",
        "EPEZZS1-201007-B-0-K",
        "EPEZZS1-201007-A-1-K",
        "EPEZZS11-201007-A-0-K",
    ] {
        assert_eq!(transfer(&mut book, title, 1), refused(13), "{title}");
    }
}

#[test]
fn refusal_13_identifier() {
    let mut book = zs1_paired();
    for identifier in [
        "",
        "ZS",
        "ZS2",
        "zs1",
        "ZS1\0",
        " ZS1",
        "ZS11",
        "EPEZZS1",
        "ZS1234567890123456",
        "ZS123456789012345678901234567890",
    ] {
        for call in every_call(identifier) {
            assert_eq!(ask(&mut book, &call), refused(13), "{identifier} {call:?}");
        }
    }
    for call in every_call("ZS1") {
        assert_eq!(ask(&mut Book::empty(), &call), refused(13));
    }
}

#[test]
fn refusal_14_total() {
    let mut book = zs1_waiting();
    assert_eq!(transfer(&mut book, TITLE_K, CAP - 1), Answer::Done);
    assert_eq!(transfer(&mut book, TITLE_K, 2), refused(14));
    assert_eq!(transfer(&mut book, TITLE_K, CAP), refused(14));
    assert_eq!(transfer(&mut book, TITLE_K, 1), Answer::Done);
    assert_eq!(transfer(&mut book, TITLE_K, 1), refused(14));
    // The other money has its own total.
    assert_eq!(transfer(&mut book, TITLE_O, CAP), Answer::Done);
    assert_eq!(transfer(&mut book, TITLE_O, 1), refused(14));
    // A returned surplus makes no room.
    close(&mut book, "ZS1");
    assert_eq!(give_back(&mut book, "ZS1", ZWR, K), returned(CAP, 0));
    assert_eq!(transfer(&mut book, TITLE_K, 1), refused(14));
}

#[test]
fn any_stage_takes_a_transfer() {
    let mut paired = zs1_paired();
    assert_eq!(transfer(&mut paired, TITLE_K, 5), Answer::Done);
    assert_eq!(paired.shipments[0].free(Money::K), 5);
    let mut closed = zs1_waiting();
    close(&mut closed, "ZS1");
    assert_eq!(transfer(&mut closed, TITLE_O, 5), Answer::Done);
    assert_eq!(closed.shipments[0].free(Money::O), 5);
}

#[test]
fn refusal_15_stage() {
    let mut paired = zs1_paired();
    let mut closed = zs1_waiting();
    assert_eq!(close(&mut closed, "ZS1"), Answer::Done);
    for book in [&mut paired, &mut closed] {
        assert_eq!(go_ahead(book, "ZS1"), refused(15));
        assert_eq!(pair(book, "ZS1"), refused(15));
        assert_eq!(close(book, "ZS1"), refused(15));
    }
}

#[test]
fn refusals_16_and_17_go_ahead() {
    let mut book = zs1_waiting();
    intake(&mut book, &Draft::new("ZS2", &["1.00"]));
    assert_eq!(go_ahead(&mut book, "ZS2"), refused(16));
    assert_eq!(go_ahead(&mut book, "ZS1"), Answer::Done);
    assert!(book.shipments[0].go_ahead);
    assert_eq!(go_ahead(&mut book, "ZS1"), refused(17));
}

#[test]
fn refusal_18_before_short() {
    let mut book = zs1_waiting();
    assert_eq!(pair(&mut book, "ZS1"), refused(18));
    go_ahead(&mut book, "ZS1");
    assert_eq!(
        pair(&mut book, "ZS1"),
        Answer::Short {
            k: 17_550,
            o: 1_050
        }
    );
    // A shipment without faults needs none.
    intake(&mut book, &Draft::new("ZS2", &["1.00"]));
    assert_eq!(pair(&mut book, "ZS2"), Answer::Short { k: 100, o: 350 });
}

#[test]
fn a_fee_of_zero_needs_no_fees() {
    let mut book = Book::empty();
    let draft = Draft::new("ZS1", &["1.00", "2.00"])
        .field(4, "")
        .tariff(0, 0);
    assert_eq!(intake(&mut book, &draft), accepted(2, 1));
    go_ahead(&mut book, "ZS1");
    transfer(&mut book, TITLE_K, 300);
    assert_eq!(pair(&mut book, "ZS1"), Answer::Paired);
    assert_eq!(post(&mut book, "ZS1", 2), Answer::FeeEarned(0));
    // "Above zero" speaks of the sum: 23, and the wait stays.
    assert_eq!(give_back(&mut book, "ZS1", OPR, O), refused(23));
    assert!(book.shipments[0].rows[0].state.waits(Money::O));
    assert_eq!(give_back(&mut book, "ZS1", OPR, K), returned(100, 1));
}

#[test]
fn refusal_19_not_paired() {
    let mut waiting = zs1_waiting();
    let mut closed = zs1_waiting();
    close(&mut closed, "ZS1");
    for book in [&mut waiting, &mut closed] {
        for order in [0, 1, 2, 3, 4, u64::MAX] {
            assert_eq!(post(book, "ZS1", order), refused(19));
            assert_eq!(pay(book, "ZS1", order), refused(19));
            assert_eq!(mark_undelivered(book, "ZS1", order), refused(19));
            assert_eq!(withdraw(book, "ZS1", order), refused(19));
        }
        for route in [OPR, ZPR, ZZR] {
            for money in [K, O] {
                assert_eq!(give_back(book, "ZS1", route, money), refused(19));
            }
        }
    }
}

#[test]
fn refusal_20_order_number() {
    let mut book = zs1_paired();
    for order in [0, 4, u64::MAX] {
        assert_eq!(post(&mut book, "ZS1", order), refused(20));
        assert_eq!(pay(&mut book, "ZS1", order), refused(20));
        assert_eq!(mark_undelivered(&mut book, "ZS1", order), refused(20));
        assert_eq!(withdraw(&mut book, "ZS1", order), refused(20));
    }
    assert_eq!(post(&mut book, "ZS1", 1), Answer::FeeEarned(350));
    assert_eq!(post(&mut book, "ZS1", 3), Answer::FeeEarned(350));
}

#[test]
fn refusal_21_state() {
    // Order 1 of a fresh Paired ZS1, brought to each state; which of post,
    // pay, mark undelivered, withdraw then fit.
    let steps: Vec<(&str, Change, u64, [bool; 4])> = vec![
        ("Open", |_| {}, 1, [true, false, false, true]),
        (
            "Posted",
            |b| {
                post(b, "ZS1", 1);
            },
            1,
            [false, true, true, false],
        ),
        (
            "Paid",
            |b| {
                post(b, "ZS1", 1);
                pay(b, "ZS1", 1);
            },
            1,
            [false; 4],
        ),
        (
            "Undelivered",
            |b| {
                post(b, "ZS1", 1);
                mark_undelivered(b, "ZS1", 1);
            },
            1,
            [false; 4],
        ),
        (
            "Withdrawn",
            |b| {
                withdraw(b, "ZS1", 1);
            },
            1,
            [false; 4],
        ),
        ("Faulty", |_| {}, 2, [false; 4]),
    ];
    for (state, bring, order, fits) in steps {
        let calls = [post, pay, mark_undelivered, withdraw];
        for (call, fit) in calls.iter().zip(fits) {
            let mut book = zs1_paired();
            bring(&mut book);
            let answer = call(&mut book, "ZS1", order);
            assert_eq!(answer != refused(21), fit, "{state}: {answer:?}");
            assert!(fit || answer == refused(21), "{state}: {answer:?}");
        }
    }
}

#[test]
fn refusal_22_zpr_with_fees_and_unknown_numbers() {
    let mut book = zs1_paired();
    assert_eq!(give_back(&mut book, "ZS1", ZPR, O), refused(22));
    // A route or money number that means nothing: 13, 19, then 22.
    let mut waiting = zs1_waiting();
    let mut closed = zs1_waiting();
    close(&mut closed, "ZS1");
    for (route, money) in [(4, K), (4, O), (OPR, 2), (ZWR, 2), (u64::MAX, u64::MAX)] {
        assert_eq!(give_back(&mut closed, "ZS1", route, money), refused(19));
        assert_eq!(give_back(&mut book, "ZS1", route, money), refused(22));
        assert_eq!(give_back(&mut waiting, "ZS1", route, money), refused(19));
        assert_eq!(give_back(&mut waiting, "ZS2", route, money), refused(13));
    }
}

#[test]
fn refusal_23_nothing_to_return() {
    let mut book = Book::empty();
    intake(&mut book, &Draft::new("ZS1", &["1.00", "2.00"]));
    transfer(&mut book, TITLE_K, 300);
    transfer(&mut book, TITLE_O, 700);
    pair(&mut book, "ZS1");
    for (route, money) in [
        (OPR, K),
        (OPR, O),
        (ZPR, K),
        (ZZR, K),
        (ZZR, O),
        (ZWR, K),
        (ZWR, O),
    ] {
        assert_eq!(give_back(&mut book, "ZS1", route, money), refused(23));
    }
    // Closed without money.
    let mut book = zs1_waiting();
    close(&mut book, "ZS1");
    assert_eq!(give_back(&mut book, "ZS1", ZWR, K), refused(23));
    assert_eq!(give_back(&mut book, "ZS1", ZWR, O), refused(23));
}

#[test]
fn refusal_24_zwr_while_waiting() {
    let mut book = zs1_waiting();
    assert_eq!(give_back(&mut book, "ZS1", ZWR, K), refused(24));
    transfer(&mut book, TITLE_K, 5);
    assert_eq!(give_back(&mut book, "ZS1", ZWR, K), refused(24));
    assert_eq!(give_back(&mut book, "ZS1", ZWR, O), refused(24));
}

#[test]
fn zwr_of_a_closed_shipment() {
    let mut book = zs1_waiting();
    transfer(&mut book, TITLE_K, 20_000);
    transfer(&mut book, TITLE_O, 3);
    go_ahead(&mut book, "ZS1");
    assert_eq!(close(&mut book, "ZS1"), Answer::Done);
    let shipment = &book.shipments[0];
    // Closed keeps go-ahead, faults and both waits; its orders hold nothing.
    assert!(shipment.go_ahead);
    assert_eq!(shipment.held(Money::K), 0);
    assert_eq!(shipment.held(Money::O), 0);
    assert_eq!(shipment.free(Money::K), 20_000);
    assert!(shipment.rows[1].state.waits(Money::K));
    assert_eq!(give_back(&mut book, "ZS1", ZWR, K), returned(20_000, 0));
    assert_eq!(give_back(&mut book, "ZS1", ZWR, K), refused(23));
    transfer(&mut book, TITLE_K, 7);
    assert_eq!(give_back(&mut book, "ZS1", ZWR, K), returned(7, 0));
    assert_eq!(give_back(&mut book, "ZS1", ZWR, O), returned(3, 0));
    assert_eq!(book.shipments[0].returned(Money::K), 20_007);
}

#[test]
fn zpr_returns_what_came_back() {
    let mut book = zs1_paired();
    post(&mut book, "ZS1", 1);
    post(&mut book, "ZS1", 3);
    let shipment = &book.shipments[0];
    assert_eq!(shipment.held(Money::K), 17_550);
    assert_eq!(shipment.held(Money::O), 350);
    assert_eq!(mark_undelivered(&mut book, "ZS1", 1), Answer::Done);
    assert_eq!(mark_undelivered(&mut book, "ZS1", 3), Answer::Done);
    assert_eq!(
        book.shipments[0].rows[0].state,
        State::Undelivered { k_waits: true }
    );
    assert_eq!(book.shipments[0].held(Money::K), 17_550);
    assert_eq!(give_back(&mut book, "ZS1", ZPR, K), returned(12_550, 2));
    assert_eq!(give_back(&mut book, "ZS1", ZPR, K), refused(23));
    assert_eq!(
        book.shipments[0].rows[0].state,
        State::Undelivered { k_waits: false }
    );
    // The fault's moneys wait on: ZPR is not OPR.
    assert_eq!(book.shipments[0].held(Money::K), 5_000);
    assert_eq!(book.shipments[0].held(Money::O), 350);
}

#[test]
fn the_two_moneys_of_a_withdrawal_go_apart_and_later_ones_follow() {
    let mut book = zs1_paired();
    withdraw(&mut book, "ZS1", 1);
    assert_eq!(give_back(&mut book, "ZS1", ZZR, K), returned(10_000, 1));
    withdraw(&mut book, "ZS1", 3);
    // Two orders' fees wait now, one order's amount.
    assert_eq!(give_back(&mut book, "ZS1", ZZR, O), returned(700, 2));
    assert_eq!(give_back(&mut book, "ZS1", ZZR, K), returned(2_550, 1));
    assert_eq!(give_back(&mut book, "ZS1", ZZR, K), refused(23));
    assert_eq!(give_back(&mut book, "ZS1", ZZR, O), refused(23));
}
