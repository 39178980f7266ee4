//! Document 01's shipment ZS1, lines 1 to 8, and the five lines of the field
//! engineer's card. (Lines 9 to 12 of ZS1 are boundaries, and stand among the
//! fields and dates.)

use super::sheet::expect_rows;
use crate::calls::*;
use crate::coverage::Coverage;
use crate::draft::Draft;
use crate::run::Run;
use crate::sheet::Lending;
use buntingraft::Money::{K, O};
use buntingraft::Route::{Opr, Zwr, Zzr};
use reference::{Answer, Call};

const TITLE_K: &str = "EPEZZS1-201007-A-0-K";
const TITLE_O: &str = "EPEZZS1-201007-A-0-O";

/// Runs ZS1 and the card.
pub fn check(coverage: &mut Coverage) {
    let [short, long] = ["201007", "20201007"].map(|date| zs1(date, coverage));
    assert!(
        short == long,
        "long titles leave other bytes than short ones"
    );
    surname(coverage);
    fees_left_empty(coverage);
    one_grosz_short(coverage);
    wrong_sum(coverage);
    surplus_twice(coverage);
}

/// An accepted file.
fn accepted(orders: u64, faulty: u64) -> Answer {
    Answer::Accepted { orders, faulty }
}

/// A return.
fn returned(sum: u64, count: u64) -> Answer {
    Answer::Returned { sum, count }
}

/// Makes calls whose answers are known.
fn expect_all(run: &mut Run, calls: Vec<(Call, Answer)>) {
    for (call, answer) in calls {
        run.expect(call, answer);
    }
}

/// ZS1, lines 1 to 8, with this date in its titles; what has left by lines 6 and
/// 8 is read off the sheet. Gives the bytes of the book.
fn zs1(date: &str, coverage: &mut Coverage) -> Vec<u8> {
    let mut run = Run::begin(format!("ZS1, titles of {date}"), 0, coverage);
    let [title_k, title_o] = ["K", "O"].map(|money| format!("EPEZZS1-{date}-A-0-{money}"));
    let lines_1_to_6 = vec![
        (Draft::zs1().intake(), accepted(3, 1)),
        (transfer(&title_k, 17_549), Answer::Done),
        (transfer(&title_o, 1_050), Answer::Done),
        (pair("ZS1"), Answer::Refused(18)),
        (go_ahead("ZS1"), Answer::Done),
        (pair("ZS1"), Answer::Short { k: 1, o: 0 }),
        (transfer(&title_k, 101), Answer::Done),
        (pair("ZS1"), Answer::Paired),
        (give_back("ZS1", Zwr, K), returned(100, 0)),
        (give_back("ZS1", Zwr, K), Answer::Refused(23)),
        (give_back("ZS1", Opr, K), returned(5_000, 1)),
        (give_back("ZS1", Opr, O), returned(350, 1)),
        (post("ZS1", 1), Answer::FeeEarned(350)),
        (pay("ZS1", 1), Answer::AmountPaid(10_000)),
    ];
    expect_all(&mut run, lines_1_to_6);
    let sums = [17_650, 2_550, 0, 15_100, 1_050, 350, 0, 700];
    expect_rows(&mut run, &[("ZS1", sums)]);
    let line_7 = vec![
        (withdraw("ZS1", 3), Answer::Done),
        (give_back("ZS1", Zzr, K), returned(2_550, 1)),
        (give_back("ZS1", Zzr, O), returned(350, 1)),
    ];
    expect_all(&mut run, line_7);
    let sums = [17_650, 0, 0, 17_650, 1_050, 0, 0, 1_050];
    expect_rows(&mut run, &[("ZS1", sums)]);
    run.bytes().to_vec()
}

/// "Load a surname of 31 Polish letters."
fn surname(coverage: &mut Coverage) {
    let mut run = Run::begin("card: surname".into(), 0, coverage);
    let with = |id, length| {
        Draft::new(id, &[100])
            .with_field(1, 4, &"Ł".repeat(length))
            .intake()
    };
    run.expect(with("ZS1", 31), accepted(1, 0));
    run.expect(with("ZS2", 32), accepted(1, 1));
}

/// "Fund the amounts, leave the fees empty, pair."
fn fees_left_empty(coverage: &mut Coverage) {
    let mut run = Run::begin("card: fees left empty".into(), 0, coverage);
    let calls = vec![
        (Draft::new("ZS1", &[10_000, 2_550]).intake(), accepted(2, 0)),
        (transfer(TITLE_K, 1_000_000), Answer::Done),
        (pair("ZS1"), Answer::Short { k: 0, o: 700 }),
        (Draft::new("ZS2", &[10_000, 2_550]).intake(), accepted(2, 0)),
        (transfer("EPEZZS2-201007-A-0-O", 1_000_000), Answer::Done),
        (pair("ZS2"), Answer::Short { k: 12_550, o: 0 }),
    ];
    expect_all(&mut run, calls);
}

/// "Pair one grosz short, then exactly."
fn one_grosz_short(coverage: &mut Coverage) {
    let mut run = Run::begin("card: one grosz short".into(), 0, coverage);
    let calls = vec![
        (Draft::new("ZS1", &[10_000, 2_550]).intake(), accepted(2, 0)),
        (transfer(TITLE_K, 12_549), Answer::Done),
        (transfer(TITLE_O, 699), Answer::Done),
        (pair("ZS1"), Answer::Short { k: 1, o: 1 }),
        (transfer(TITLE_K, 1), Answer::Done),
        (pair("ZS1"), Answer::Short { k: 0, o: 1 }),
        (transfer(TITLE_O, 1), Answer::Done),
        (pair("ZS1"), Answer::Paired),
    ];
    expect_all(&mut run, calls);
}

/// "Load a file whose sum is wrong, then read the sheet."
fn wrong_sum(coverage: &mut Coverage) {
    let mut run = Run::begin("card: wrong sum".into(), 0, coverage);
    run.expect(Draft::zs1().intake(), accepted(3, 1));
    let longer = Lending {
        rows: 4,
        totals: [5; 8],
    };
    run.expect_sheet(&longer, Ok(1));
    let before = run.sheet(&longer);
    let draft = Draft::new("ZS2", &[10_000, 2_550]);
    let wrong = draft.clone().with_header(12, "125.51");
    run.expect(wrong.intake(), Answer::Refused(132));
    assert_eq!(run.sheet(&longer), before, "a refused file left something");
    run.expect(draft.intake(), accepted(2, 0));
    run.expect_sheet(&longer, Ok(2));
}

/// "Return the surplus twice."
fn surplus_twice(coverage: &mut Coverage) {
    let mut run = Run::begin("card: surplus twice".into(), 0, coverage);
    let calls = vec![
        (Draft::new("ZS1", &[10_000]).intake(), accepted(1, 0)),
        (transfer(TITLE_K, 10_077), Answer::Done),
        (transfer(TITLE_O, 350), Answer::Done),
        (pair("ZS1"), Answer::Paired),
        (give_back("ZS1", Zwr, K), returned(77, 0)),
        (give_back("ZS1", Zwr, K), Answer::Refused(23)),
        (transfer(TITLE_K, 5), Answer::Done),
        (give_back("ZS1", Zwr, K), returned(5, 0)),
        (give_back("ZS1", Zwr, K), Answer::Refused(23)),
    ];
    expect_all(&mut run, calls);
}
