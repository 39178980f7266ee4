//! What is measured on books: each call on a full book, with its soundness pass
//! and without, the cost against the number of rows, and the balance sheet.

use crate::books::{Books, Fate};
use crate::table::{Table, FULL_BOOK, NONE};
use crate::timing::{nanoseconds, Clock, Effort};
use bench::calls::{agreed, Answer, Archive, Call, Rival, Twin};
use bench::files::{with_a_rate, Records, PROFILE, RATED};
use bench::sheets::{agreed_sheet, archive_sheet, twin_sheet, Lent};
use buntingraft::{Money, Profile, Route};
use std::hint::black_box;

const EFFORT: Effort = Effort {
    turns: 200,
    calls: 100,
};

/// A call that stops right after the soundness pass: its identifier is none, so
/// it is refused with 13.
const SOUNDNESS: Call = Call::Close(b"");

/// The times of a call.
struct Times {
    /// With its soundness pass: the archive's and the twin's.
    whole: [f64; 2],
    /// Without it: the archive's by difference, the twin's by itself.
    bare: [f64; 2],
}

/// Measures a call that both do alike and do not refuse.
fn race(clock: &Clock, book: &[u8], call: Call) -> Times {
    let answer = agreed(book, &call);
    assert!(!matches!(answer, Answer::Refused(_)), "{answer:?}");
    let [archive, soundness, twin, bare_twin] = clock.race(
        EFFORT,
        book,
        [
            (Archive::make as _, call),
            (Archive::make as _, SOUNDNESS),
            (Twin::<true>::make as _, call),
            (Twin::<false>::make as _, call),
        ],
    );
    Times {
        whole: [archive, twin],
        bare: [(archive - soundness).max(0.0), bare_twin],
    }
}

/// The times of the soundness pass alone: the archive's and the twin's.
fn race_soundness(clock: &Clock, book: &[u8]) -> [f64; 2] {
    let entries = [
        (Archive::make as _, SOUNDNESS),
        (Twin::<true>::make as _, SOUNDNESS),
    ];
    clock.race(EFFORT, book, entries)
}

/// Each call on a full book of so many shipments with so many orders each, taken
/// in by this profile: with the soundness pass, and without.
pub fn full_book(clock: &Clock, shipments: usize, orders: usize, profile: &Profile) -> [Table; 2] {
    let books = Books::new(shipments, orders, Records::Faulty, profile);
    let mixed = books.in_all_states();
    let (id, waiting) = (books.id.as_slice(), &books.waiting);
    let (short, long) = (&books.title, &books.long_title);
    let (open, posted) = (books.last(Fate::Open), books.last(Fate::Posted));
    let lines = [
        ("transfer", waiting, Call::Transfer(short, 1)),
        ("transfer, long title", waiting, Call::Transfer(long, 1)),
        ("go-ahead", waiting, Call::GoAhead(id)),
        ("pair", &books.ready, Call::Pair(id)),
        ("close", waiting, Call::Close(id)),
        ("post", &mixed, Call::Post(id, open)),
        ("pay", &mixed, Call::Pay(id, posted)),
        (
            "mark undelivered",
            &mixed,
            Call::MarkUndelivered(id, posted),
        ),
        ("withdraw", &mixed, Call::Withdraw(id, open)),
        ("ZWR, K", &mixed, Call::GiveBack(id, Route::Zwr, Money::K)),
        ("ZWR, O", &mixed, Call::GiveBack(id, Route::Zwr, Money::O)),
        ("OPR, K", &mixed, Call::GiveBack(id, Route::Opr, Money::K)),
        ("OPR, O", &mixed, Call::GiveBack(id, Route::Opr, Money::O)),
        ("ZPR, K", &mixed, Call::GiveBack(id, Route::Zpr, Money::K)),
        ("ZZR, K", &mixed, Call::GiveBack(id, Route::Zzr, Money::K)),
        ("ZZR, O", &mixed, Call::GiveBack(id, Route::Zzr, Money::O)),
    ];
    let rated = with_a_rate(profile);
    let title = format!("Calls on a full book, {shipments} × {orders} orders{rated}");
    let mut whole = Table::new(&title, "twin", FULL_BOOK);
    let mut bare = Table::new(&(title + ", without the soundness pass"), "twin", NONE);
    whole.add_call("soundness alone", race_soundness(clock, &mixed));
    for (line, book, call) in lines {
        let times = race(clock, book, call);
        whole.add_call(line, times.whole);
        bare.add_call(line, times.bare);
    }
    [whole, bare]
}

/// The cost against the number of rows, in a book of one shipment.
pub fn rows(clock: &Clock) -> Table {
    let mut table = Table::new("Cost against rows, in a book of one shipment", "twin", NONE);
    for orders in [1, 64, 512, 2_048] {
        let books = Books::new(1, orders, Records::Faulty, &PROFILE);
        let all_open = Books::new(1, orders, Records::Polish, &PROFILE).paired;
        let id = books.id.as_slice();
        let opr = Call::GiveBack(id, Route::Opr, Money::K);
        let mut add = |line: &str, times| table.add_call(&format!("{line}, rows: {orders}"), times);
        add("soundness alone", race_soundness(clock, &books.paired));
        add(
            "post",
            race(clock, &all_open, Call::Post(id, orders as u64)).whole,
        );
        add("pair", race(clock, &books.ready, Call::Pair(id)).whole);
        add("OPR, K", race(clock, &books.paired, opr).whole);
    }
    table
}

/// The balance sheet of books of one shipment, and of a book of 32; of full ones
/// with a rate too.
pub fn sheets(clock: &Clock) -> Table {
    let mut table = Table::new("The balance sheet", "twin", NONE);
    for (shipments, orders, profile) in [
        (1, 1, &PROFILE),
        (1, 64, &PROFILE),
        (1, 512, &PROFILE),
        (1, 2_048, &PROFILE),
        (32, 64, &PROFILE),
        (1, 2_048, &RATED),
        (32, 64, &RATED),
    ] {
        let books = Books::new(shipments, orders, Records::Faulty, profile);
        let mut book = books.in_all_states();
        assert_eq!(agreed_sheet(&book, &Lent::default()), Ok(shipments));
        let mut lent = Lent::default();
        let times = clock.take_turns(EFFORT, |entry| {
            lent.totals = Default::default();
            let sheet = [archive_sheet, twin_sheet][entry];
            nanoseconds(|| sheet(black_box(&mut book), black_box(&mut lent)))
        });
        let rated = with_a_rate(profile);
        table.add_call(&format!("{shipments} × {orders} orders{rated}"), times);
    }
    table
}
