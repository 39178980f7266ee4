//! What is measured on report files.

use crate::table::{Table, NONE, REPORT};
use crate::timing::{nanoseconds, Clock, Effort};
use bench::calls::{Answer, Archive, Call, Rival};
use bench::files::{order_file, Records, PROFILE};
use bench::reports::{
    agreed_ope, agreed_rkf, archive_ope, archive_rkf, twin_ope, twin_rkf, Ope, Rkf,
};
use buntingraft::{BOOK_BYTES, MOST_OPE_BYTES, MOST_RKF_BYTES};
use std::hint::black_box;

const EFFORT: Effort = Effort {
    turns: 200,
    calls: 50,
};

/// The orders of the shipment that an OPE is written of.
const ORDERS: usize = 2_048;

/// The OPE of a full book whose orders are all faulty.
pub fn ope(clock: &Clock) -> Table {
    let mut table = Table::new("OPE", "twin", REPORT);
    let file = order_file("ZS1", ORDERS, Records::AllFaulty);
    let mut book = vec![0; BOOK_BYTES];
    let taken_in = Archive::make(&mut book, &Call::Intake(&PROFILE, &file.name, &file.bytes));
    assert!(matches!(taken_in, Answer::Accepted(all) if all.faulty == ORDERS as u64));
    let ope = Ope {
        id: b"ZS1",
        own: b"PP0000000003",
        created: 20_201_007_131_500,
        codes: &[308, 309, 310, 311, 312, 313, 314, 315, 316, 317],
    };
    assert!(agreed_ope(&book, &ope, MOST_OPE_BYTES).is_ok());
    let mut output = vec![0; MOST_OPE_BYTES];
    let times = clock.take_turns(EFFORT, |entry| {
        let write = [archive_ope, twin_ope][entry];
        nanoseconds(|| {
            write(
                black_box(&mut book),
                black_box(&ope),
                black_box(&mut output),
            )
        })
    });
    table.add_records("1 × 2,048 orders, all faulty", ORDERS, times);
    table
}

/// The RKF of an accepted file, and of a refused one.
pub fn rkf(clock: &Clock) -> Table {
    let mut table = Table::new("RKF", "twin", NONE);
    for (line, refusal) in [("file accepted", 0), ("file refused", 103)] {
        let rkf = Rkf {
            own: b"PP0000000001",
            created: 20_201_007_130_000,
            source: b"ZS1",
            refusal,
        };
        assert!(agreed_rkf(&rkf, MOST_RKF_BYTES).is_ok());
        let mut output = vec![0; MOST_RKF_BYTES];
        let times = clock.take_turns(EFFORT, |entry| {
            let write = [archive_rkf, twin_rkf][entry];
            nanoseconds(|| write(black_box(&rkf), black_box(&mut output)))
        });
        table.add_call(line, times);
    }
    table
}
