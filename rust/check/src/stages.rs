//! A book made by calls, with shipments in every stage and orders in every
//! state; and the same book filled to its last row.

use crate::calls::*;
use crate::draft::Draft;
use crate::lent::leaves_the_book;
use crate::naming::{title, MONEYS};
use crate::run::Run;
use buntingraft::Money::{K, O};
use buntingraft::Route::{Opr, Zpr, Zwr, Zzr};
use reference::{Call, MOST_ROWS, MOST_SHIPMENTS};

/// The Paired shipment with the longest identifier that there is.
pub const LONGEST: &str = "PDabcdefgh0123456";

/// Enters the shipments: WA1, GA1 and OK1 Waiting, PA1, PB1, PC1, [`LONGEST`]
/// and PZ1 Paired; with a rate RW1 Waiting, RA1 and RB1 Paired and RC1 Closed; CL1
/// and CN1 Closed.
pub fn enter_all(run: &mut Run) {
    waiting(run);
    paired(run);
    returned_in_part(run);
    rated(run);
    closed(run);
}

/// Fills the book: Waiting shipments of one order each, and a Paired one with
/// all the rows that are left, and a rate.
pub fn fill(run: &mut Run) {
    for place in run.book().shipments.len()..MOST_SHIPMENTS - 1 {
        done(run, Draft::new(&format!("FI{place}"), &[1]).intake());
    }
    let left = MOST_ROWS - run.book().row_count();
    let rest = Draft::new("FU1", &vec![5; left]).with_tariff(7, 2_500);
    funded(run, &rest, 0);
    done(run, pair("FU1"));
}

/// Makes a call that must be done.
fn done(run: &mut Run, call: Call) {
    let answer = run.call(call);
    assert!(
        !leaves_the_book(&answer),
        "a stage was not reached: {answer:?}"
    );
}

/// Takes in a file, and funds both its needs with so much more or less (a need
/// of 0 by a transfer that is refused).
fn funded(run: &mut Run, draft: &Draft, more: i64) {
    done(run, draft.intake());
    let shipment = run.book().shipments.last().expect("it was taken in");
    let transfers = MONEYS.map(|money| Call::Transfer {
        title: title(&shipment.name, money),
        amount: shipment.need(money).saturating_add_signed(more),
    });
    for transfer in transfers {
        run.call(transfer);
    }
}

/// Waiting: with a fault and no go-ahead, with one and a grosz short, and
/// covered exactly.
fn waiting(run: &mut Run) {
    done(
        run,
        Draft::new("WA1", &[700, 800]).with_field(1, 4, "").intake(),
    );
    done(run, transfer("EPEZWA1-201007-A-0-K", 7));
    let short = Draft::new("GA1", &[1, 2, 3])
        .with_field(2, 5, "")
        .with_field(3, 19, " ");
    funded(run, &short, -1);
    done(run, go_ahead("GA1"));
    funded(run, &Draft::new("OK1", &[999_999_999, 1]), 0);
}

/// Paired, with orders Open, Posted, Paid, Undelivered with and without a wait,
/// Withdrawn with both waits, with K alone and with none, and Faulty with both;
/// some surplus went back, some came late.
fn paired(run: &mut Run) {
    let draft = Draft::new("PA1", &[100, 200, 300, 400, 500, 600, 700, 800, 900, 1_000]);
    let draft = draft.with_field(10, 7, "").with_payment("B").with_kind("4");
    funded(run, &draft, 60);
    done(run, go_ahead("PA1"));
    done(run, pair("PA1"));
    for order in 2..=5 {
        done(run, post("PA1", order));
    }
    done(run, pay("PA1", 3));
    done(run, mark_undelivered("PA1", 5));
    done(run, give_back("PA1", Zpr, K));
    done(run, mark_undelivered("PA1", 4));
    done(run, withdraw("PA1", 8));
    done(run, give_back("PA1", Zzr, K));
    done(run, give_back("PA1", Zzr, O));
    done(run, withdraw("PA1", 7));
    done(run, give_back("PA1", Zzr, O));
    done(run, withdraw("PA1", 6));
    done(run, give_back("PA1", Zwr, K));
    done(run, transfer("EPEZPA1-201007-B-4-K", 5));
}

/// Paired, with a Faulty and a Withdrawn order of which K, O or both went back,
/// or O of worth 0 waits.
fn returned_in_part(run: &mut Run) {
    let returned: [(&str, &str, &[_]); 4] = [
        ("PB1", "0", &[K]),
        ("PC1", "1", &[O]),
        (LONGEST, "2", &[K, O]),
        ("PZ1", "3", &[K]),
    ];
    for (identifier, kind, moneys) in returned {
        let mut draft = Draft::new(identifier, &[100, 20, 3]).with_field(2, 15, "");
        draft.profile.flat[3] = 0;
        funded(run, &draft.with_kind(kind), 0);
        done(run, go_ahead(identifier));
        done(run, pair(identifier));
        done(run, withdraw(identifier, 3));
        for money in moneys {
            done(run, give_back(identifier, Opr, *money));
            done(run, give_back(identifier, Zzr, *money));
        }
    }
}

/// With a rate: Waiting and a grosz short, Paired with orders in most states, and
/// some fees of 0 among those that wait or went back, and Closed.
fn rated(run: &mut Run) {
    let short = Draft::new("RW1", &[5_000, 10, 2_499]).with_field(2, 4, "");
    funded(run, &short.with_tariff(350, 125), -1);
    done(run, go_ahead("RW1"));
    let amounts = [
        9_999,
        10_000,
        20_001,
        123_456,
        999_999_999,
        1,
        30_000,
        5,
        40_000,
    ];
    let many = Draft::new("RA1", &amounts)
        .with_fault(8, 3)
        .with_fault(9, 8);
    funded(run, &many.with_tariff(0, 1), 3);
    done(run, go_ahead("RA1"));
    done(run, pair("RA1"));
    for order in 3..=5 {
        done(run, post("RA1", order));
    }
    done(run, pay("RA1", 4));
    done(run, mark_undelivered("RA1", 5));
    done(run, withdraw("RA1", 6));
    done(run, withdraw("RA1", 7));
    let returned = Draft::new("RB1", &[1, 2, 1, 10_000, 3])
        .with_fault(1, 9)
        .with_fault(2, 1);
    funded(run, &returned.with_tariff(0, 9_999), 0);
    done(run, go_ahead("RB1"));
    done(run, pair("RB1"));
    done(run, withdraw("RB1", 3));
    done(run, withdraw("RB1", 4));
    done(run, give_back("RB1", Opr, O));
    done(run, give_back("RB1", Zzr, O));
    let closed = Draft::new("RC1", &[999_999_649, 77]);
    funded(run, &closed.with_tariff(350, 10_000), 0);
    done(run, close("RC1"));
}

/// Closed: with a fault, a go-ahead and surplus gone and left, and with
/// nothing.
fn closed(run: &mut Run) {
    funded(
        run,
        &Draft::new("CL1", &[50_000, 9]).with_field(1, 6, ""),
        1,
    );
    done(run, go_ahead("CL1"));
    done(run, close("CL1"));
    done(run, give_back("CL1", Zwr, K));
    done(run, transfer("EPEZCL1-201007-A-0-K", 7));
    done(run, Draft::new("CN1", &[4]).intake());
    done(run, close("CN1"));
}
