//! Full books: 32 shipments, 2,048 rows, both, and files and sums that are too
//! large for a book.

use crate::calls::*;
use crate::coverage::Coverage;
use crate::draft::Draft;
use crate::run::Run;
use buntingraft::Money::{K, O};
use buntingraft::Route::{Zpr, Zwr, Zzr};
use reference::{Answer, MOST_AMOUNT, MOST_RATE, MOST_SUM};

/// Fills books in each way.
pub fn check(coverage: &mut Coverage) {
    most_shipments(coverage);
    most_rows(coverage);
    both(coverage);
    most_money(MOST_AMOUNT, 0, coverage);
    most_money(0, MOST_RATE, coverage);
}

/// Takes in a file of so many orders of one grosz, which must be accepted.
fn enter(run: &mut Run, identifier: &str, orders: usize) {
    let accepted = Answer::Accepted {
        orders: orders as u64,
        faulty: 0,
    };
    run.expect(grosze(identifier, orders), accepted);
}

/// The intake of a file of so many orders of one grosz.
fn grosze(identifier: &str, orders: usize) -> reference::Call {
    Draft::new(identifier, &vec![1; orders]).intake()
}

/// 32 shipments, and no more; the last of them works like any other.
fn most_shipments(coverage: &mut Coverage) {
    let mut run = Run::begin("32 shipments".into(), 1, coverage);
    (1..=32).for_each(|place| enter(&mut run, &format!("SH{place}"), 2));
    run.expect(grosze("SH33", 1), Answer::Refused(903));
    run.expect(grosze("SH32", 1), Answer::Refused(101));
    run.expect(transfer("EPEZSH32-201007-A-0-K", 2), Answer::Done);
    run.expect(transfer("EPEZSH32-201007-A-0-O", 701), Answer::Done);
    run.expect(pair("SH32"), Answer::Paired);
    run.expect(post("SH32", 2), Answer::FeeEarned(350));
    run.expect(
        give_back("SH32", Zwr, O),
        Answer::Returned { sum: 1, count: 0 },
    );
    run.expect(close("SH1"), Answer::Done);
    run.expect(grosze("SH33", 1), Answer::Refused(903));
}

/// 2,048 rows, and no more; the last of them works like any other.
fn most_rows(coverage: &mut Coverage) {
    let mut run = Run::begin("2,048 rows".into(), 0, coverage);
    run.expect(grosze("RO1", 2_049), Answer::Refused(904));
    enter(&mut run, "RO1", 1);
    run.expect(grosze("RO2", 2_048), Answer::Refused(904));
    enter(&mut run, "RO2", 2_046);
    run.expect(grosze("RO3", 2), Answer::Refused(904));
    enter(&mut run, "RO3", 1);
    run.expect(grosze("RO4", 1), Answer::Refused(904));
    for (title, amount) in [
        ("EPEZRO2-201007-A-0-K", 2_046),
        ("EPEZRO2-201007-A-0-O", 2_046 * 350),
        ("EPEZRO3-201007-A-0-K", 1),
        ("EPEZRO3-201007-A-0-O", 350),
    ] {
        run.expect(transfer(title, amount), Answer::Done);
    }
    for (id, order) in [("RO2", 2_046), ("RO3", 1)] {
        run.expect(pair(id), Answer::Paired);
        run.expect(post(id, order), Answer::FeeEarned(350));
        run.expect(post(id, order + 1), Answer::Refused(20));
        run.expect(mark_undelivered(id, order), Answer::Done);
        run.expect(give_back(id, Zpr, K), Answer::Returned { sum: 1, count: 1 });
    }
}

/// Both full: 903 comes first.
fn both(coverage: &mut Coverage) {
    let mut run = Run::begin("32 shipments and 2,048 rows".into(), 0, coverage);
    (1..=31).for_each(|place| enter(&mut run, &format!("BO{place}"), 1));
    run.expect(grosze("BO32", 2_018), Answer::Refused(904));
    enter(&mut run, "BO32", 2_017);
    run.expect(grosze("BO33", 1), Answer::Refused(903));
    run.expect(grosze("BO33", 2_049), Answer::Refused(903));
}

/// The largest needs that a book can have, of flat parts alone or of a rate, and
/// the most money beside them.
fn most_money(flat: u64, rate: u64, coverage: &mut Coverage) {
    let title = format!("the largest sums, flat part {flat}, rate {rate}");
    let mut run = Run::begin(title, 0, coverage);
    let draft = Draft::new("MO1", &[MOST_AMOUNT; 2_048]);
    let need = 2_048 * MOST_AMOUNT;
    run.call(draft.with_tariff(flat, rate).intake());
    run.expect(pair("MO1"), Answer::Short { k: need, o: need });
    run.expect(transfer("EPEZMO1-201007-A-0-K", need - 1), Answer::Done);
    run.expect(transfer("EPEZMO1-201007-A-0-O", MOST_SUM), Answer::Done);
    run.expect(pair("MO1"), Answer::Short { k: 1, o: 0 });
    run.expect(transfer("EPEZMO1-201007-A-0-K", 1), Answer::Done);
    run.expect(pair("MO1"), Answer::Paired);
    let free = Answer::Returned {
        sum: MOST_SUM - need,
        count: 0,
    };
    run.expect(give_back("MO1", Zwr, O), free);
    for order in 1..=2_048 {
        run.expect(withdraw("MO1", order), Answer::Done);
    }
    for money in [K, O] {
        let all = Answer::Returned {
            sum: need,
            count: 2_048,
        };
        run.expect(give_back("MO1", Zzr, money), all);
        run.expect(give_back("MO1", Zzr, money), Answer::Refused(23));
    }
}
