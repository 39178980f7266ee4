//! Fees with a rate (document 02, A5): worked fees at every edge, told by a
//! pairing and by posts; 906 and 907 at their edges and in their order; returns
//! of fees of which some are 0, and all; and every amount near a whole grosz.

use crate::calls::*;
use crate::coverage::Coverage;
use crate::draft::Draft;
use crate::run::Run;
use buntingraft::Money::{K, O};
use buntingraft::Route::{Opr, Zzr};
use reference::{Answer, Call, MOST_AMOUNT as MOST};

const TITLE_K: &str = "EPEZZS1-201007-A-0-K";
const TITLE_O: &str = "EPEZZS1-201007-A-0-O";

/// Tries all such fees.
pub fn check(coverage: &mut Coverage) {
    worked(coverage);
    above_the_cap(coverage);
    rates_out_of_range(coverage);
    each_its_own(coverage);
    zeros_among_others(coverage);
    all_zero(coverage);
    every_small_amount(coverage);
}

/// Rate, amount, the rated part of the fee, and what the division leaves.
pub const WORKED: [(u64, u64, u64, u64); 20] = [
    (0, 1, 0, 0),
    (0, 9_999, 0, 0),
    (0, 10_000, 0, 0),
    (0, MOST, 0, 0),
    (1, 1, 0, 1),
    (1, 9_999, 0, 9_999),
    (1, 10_000, 1, 0),
    (1, 10_001, 1, 1),
    (1, MOST, 99_999, 9_999),
    (9_999, 1, 0, 9_999),
    (9_999, 2, 1, 9_998),
    (9_999, 9_999, 9_998, 1),
    (9_999, 10_000, 9_999, 0),
    (9_999, MOST, 999_899_999, 1),
    (10_000, 1, 1, 0),
    (10_000, 9_999, 9_999, 0),
    (10_000, 10_000, 10_000, 0),
    (10_000, MOST, MOST, 0),
    (125, 5_000, 62, 5_000),
    (5_000, 3, 1, 5_000),
];

/// An accepted file without faults.
fn accepted(orders: u64) -> Answer {
    Answer::Accepted { orders, faulty: 0 }
}

/// A return.
fn returned(sum: u64, count: u64) -> Answer {
    Answer::Returned { sum, count }
}

/// Makes calls whose answers are known.
fn expect_all<const N: usize>(run: &mut Run, calls: [(Call, Answer); N]) {
    for (call, answer) in calls {
        run.expect(call, answer);
    }
}

/// Each worked fee with the flat parts 0, some, and the most that there is room
/// for: missing whole and then short by a grosz, earned when it is posted.
fn worked(coverage: &mut Coverage) {
    for (rate, amount, rated, remainder) in WORKED {
        for flat in [0, (MOST - rated) / 2, MOST - rated] {
            let title = format!("flat part {flat}, rate {rate}, amount {amount}");
            let mut run = Run::begin(title, 0, coverage);
            let draft = Draft::new("ZS1", &[amount]).with_tariff(flat, rate);
            run.expect(draft.intake(), accepted(1));
            let row = &run.book().shipments[0].rows[0];
            let fee = flat + rated;
            assert_eq!((row.fee.fee, row.fee.remainder), (fee, remainder));
            run.expect(transfer(TITLE_K, amount), Answer::Done);
            if fee > 0 {
                run.expect(pair("ZS1"), Answer::Short { k: 0, o: fee });
            }
            if fee > 1 {
                run.expect(transfer(TITLE_O, fee - 1), Answer::Done);
                run.expect(pair("ZS1"), Answer::Short { k: 0, o: 1 });
            }
            if fee > 0 {
                run.expect(transfer(TITLE_O, 1), Answer::Done);
            }
            run.expect(pair("ZS1"), Answer::Paired);
            run.expect(post("ZS1", 1), Answer::FeeEarned(fee));
        }
    }
}

/// Fees at the cap and a grosz above it: of one order, of one among others, which
/// may be faulty, of the file's kind alone; and 132 before 906 before 903 and 904.
fn above_the_cap(coverage: &mut Coverage) {
    let mut run = Run::begin("fees above the cap".into(), 0, coverage);
    for (rate, amount, rated, _) in WORKED {
        let draft = Draft::new("ZS1", &[amount]);
        let most = draft.clone().with_tariff(MOST - rated, rate).intake();
        run.expect_aside(&most, accepted(1));
        if rated > 0 {
            let above = draft.with_tariff(MOST - rated + 1, rate).intake();
            run.expect_aside(&above, Answer::Refused(906));
        }
    }
    for place in 0..3 {
        let mut amounts = [1, 2, 9_999];
        amounts[place] = 10_000;
        for fault in 0..=10 {
            let draft = Draft::new("ZS1", &amounts).with_fault(place + 1, fault);
            let above = draft.clone().with_tariff(MOST, 1).intake();
            run.expect_aside(&above, Answer::Refused(906));
            run.attempt(&[draft.with_tariff(MOST - 1, 1).intake()]);
        }
    }
    for (kind, other) in (0..25).map(|both| (both % 5, both / 5)) {
        let mut draft = Draft::new("ZS1", &[10_000]).with_kind(&kind.to_string());
        draft = draft.with_tariff(MOST, 0);
        draft.profile.rates[other] = 1;
        let expected = if kind == other {
            Answer::Refused(906)
        } else {
            accepted(1)
        };
        run.expect_aside(&draft.intake(), expected);
    }
    let above = Draft::zs1().with_tariff(MOST, 1);
    let wrong = above.clone().with_header(12, "175.51");
    run.expect_aside(&wrong.intake(), Answer::Refused(132));
    run.expect_aside(&above.intake(), Answer::Refused(906));
    let many = Draft::new("ZS1", &[1; 2_049]);
    let above = many.clone().with_tariff(MOST, 10_000);
    run.expect_aside(&above.intake(), Answer::Refused(906));
    run.expect_aside(&many.with_tariff(0, 10_000).intake(), Answer::Refused(904));
    // An order that no book has room for, alone above the cap.
    let mut amounts = [1; 2_049];
    amounts[2_048] = 10_000;
    let last = Draft::new("ZS1", &amounts).with_tariff(MOST, 1);
    run.expect_aside(&last.intake(), Answer::Refused(906));
}

/// Each of the five rates above its range: 907, after each part of 905, and
/// before the file is looked at.
fn rates_out_of_range(coverage: &mut Coverage) {
    let mut run = Run::begin("rates out of range".into(), 0, coverage);
    for kind in 0..5 {
        let mut draft = Draft::zs1();
        draft.profile.rates[kind] = 10_000;
        run.attempt(&[draft.intake()]);
        for rate in [10_001, 1 << 16, 1 << 32, (1 << 32) + 1, u64::MAX] {
            draft.profile.rates[kind] = rate;
            run.expect_aside(&draft.intake(), Answer::Refused(907));
            let empty = draft.intake_as(Vec::new(), Vec::new());
            run.expect_aside(&empty, Answer::Refused(907));
            let mut bad = [draft.clone(), draft.clone(), draft.clone()];
            bad[0].profile.today = 20_210_229;
            bad[1].profile.flat[4 - kind] = MOST + 1;
            bad[2].profile.fields = 33;
            for draft in bad {
                run.expect_aside(&draft.intake(), Answer::Refused(905));
            }
        }
    }
}

/// A shipment with a flat part and a rate, of which each order has another fee:
/// 3, 13, 23, 33 and 43, the first two faulty.
fn each_its_own(coverage: &mut Coverage) {
    let mut run = Run::begin("each order's own fee".into(), 0, coverage);
    let draft = Draft::new("ZS1", &[1, 1_001, 2_001, 3_001, 4_001])
        .with_fault(1, 1)
        .with_fault(2, 10)
        .with_tariff(3, 100);
    run.call(draft.intake());
    expect_all(
        &mut run,
        [
            (go_ahead("ZS1"), Answer::Done),
            (transfer(TITLE_K, 10_005), Answer::Done),
            (transfer(TITLE_O, 114), Answer::Done),
            (pair("ZS1"), Answer::Short { k: 0, o: 1 }),
            (transfer(TITLE_O, 1), Answer::Done),
            (pair("ZS1"), Answer::Paired),
            (post("ZS1", 3), Answer::FeeEarned(23)),
            (post("ZS1", 5), Answer::FeeEarned(43)),
            (pay("ZS1", 5), Answer::AmountPaid(4_001)),
            (withdraw("ZS1", 4), Answer::Done),
            (give_back("ZS1", Zzr, O), returned(33, 1)),
            (give_back("ZS1", Opr, O), returned(16, 2)),
            (give_back("ZS1", Opr, K), returned(1_002, 2)),
        ],
    );
}

/// ZS1 with these amounts, a flat part of 0 and a rate of 1, Paired with its needs
/// covered exactly; orders 1 and 2 are faulty.
fn paired_of_small_fees<'a>(
    title: &str,
    amounts: &[u64],
    fees: u64,
    coverage: &'a mut Coverage,
) -> Run<'a> {
    let mut run = Run::begin(title.into(), 0, coverage);
    let draft = Draft::new("ZS1", amounts).with_fault(1, 2).with_fault(2, 7);
    run.call(draft.with_tariff(0, 1).intake());
    run.expect(go_ahead("ZS1"), Answer::Done);
    run.expect(transfer(TITLE_K, amounts.iter().sum()), Answer::Done);
    run.expect(transfer(TITLE_O, fees), Answer::Done);
    run.expect(pair("ZS1"), Answer::Paired);
    run
}

/// Fees 0, 2, 0 and 1: those of 0 go back with the others, and count.
fn zeros_among_others(coverage: &mut Coverage) {
    let amounts = [9_999, 20_000, 1, 10_000];
    let title = "fees of 0 among others";
    let mut run = paired_of_small_fees(title, &amounts, 3, coverage);
    expect_all(
        &mut run,
        [
            (give_back("ZS1", Opr, O), returned(2, 2)),
            (give_back("ZS1", Opr, O), Answer::Refused(23)),
            (withdraw("ZS1", 3), Answer::Done),
            (withdraw("ZS1", 4), Answer::Done),
            (give_back("ZS1", Zzr, O), returned(1, 2)),
            (give_back("ZS1", Zzr, O), Answer::Refused(23)),
            (give_back("ZS1", Zzr, K), returned(10_001, 2)),
        ],
    );
}

/// Fees 0, 0, 0 and 1: where all that wait are 0 the answer is 23, and they wait
/// on, until another waits with them.
fn all_zero(coverage: &mut Coverage) {
    let title = "fees that add up to 0";
    let mut run = paired_of_small_fees(title, &[9_999, 5, 1, 10_000], 1, coverage);
    let before = run.bytes().to_vec();
    run.expect(give_back("ZS1", Opr, O), Answer::Refused(23));
    assert!(run.bytes() == before, "the waits of fees of 0 did not stay");
    expect_all(
        &mut run,
        [
            (withdraw("ZS1", 3), Answer::Done),
            (give_back("ZS1", Zzr, O), Answer::Refused(23)),
            (withdraw("ZS1", 4), Answer::Done),
            (give_back("ZS1", Zzr, O), returned(1, 2)),
            (give_back("ZS1", Opr, O), Answer::Refused(23)),
            (give_back("ZS1", Opr, K), returned(10_004, 2)),
        ],
    );
}

/// Files of the 2,048 amounts from each edge on, with rates whose products pass a
/// whole grosz often, seldom and never.
fn every_small_amount(coverage: &mut Coverage) {
    let mut run = Run::begin("amounts near whole grosze".into(), 0, coverage);
    for rate in [0, 1, 2, 3, 4_999, 5_000, 5_001, 9_998, 9_999, 10_000] {
        for from in [1, 9_000, 429_400, MOST - 2_047] {
            let amounts: Vec<u64> = (from..from + 2_048).collect();
            let draft = Draft::new("ZS1", &amounts).with_tariff(0, rate);
            run.expect_aside(&draft.intake(), accepted(2_048));
        }
    }
}
