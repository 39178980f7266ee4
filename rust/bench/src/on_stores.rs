//! What is measured on stored books.

use crate::books::Books;
use crate::table::{Table, NONE};
use crate::timing::{nanoseconds, Clock, Effort};
use bench::files::{with_a_rate, Records, PROFILE, RATED};
use bench::stores::{
    agreed_load, agreed_store, archive_load, archive_store, twin_load, twin_store,
};
use buntingraft::MOST_STORED_BYTES;
use std::hint::black_box;

const EFFORT: Effort = Effort {
    turns: 200,
    calls: 50,
};

/// Full books of orders in every state, without a rate and with one, stored and
/// loaded.
pub fn stores(clock: &Clock) -> Table {
    let mut table = Table::new("Stored books", "twin", NONE);
    for (shipments, orders, profile) in [
        (1, 2_048, &PROFILE),
        (32, 64, &PROFILE),
        (1, 2_048, &RATED),
        (32, 64, &RATED),
    ] {
        let books = Books::new(shipments, orders, Records::Faulty, profile);
        let mut book = books.in_all_states();
        let what = format!("{shipments} × {orders} orders{}", with_a_rate(profile));
        let stored = agreed_store(&book, MOST_STORED_BYTES).expect("a sound book");
        assert_eq!(agreed_load(&book, &stored), Ok(()));
        let mut output = vec![0; MOST_STORED_BYTES];
        let times = clock.take_turns(EFFORT, |entry| {
            let store = [archive_store, twin_store][entry];
            nanoseconds(|| store(black_box(&mut book), black_box(&mut output)))
        });
        table.add_call(&format!("store, {what}"), times);
        let times = clock.take_turns(EFFORT, |entry| {
            let load = [archive_load, twin_load][entry];
            nanoseconds(|| load(black_box(&mut book), black_box(&stored)))
        });
        table.add_call(&format!("load, {what}"), times);
    }
    table
}
