//! "Keep the book in a file" (document 02, A4) in A5's form: ZS1's bytes written
//! out, what is stored in every stage and state, each way of being 32, and 10, 30 and 32
//! in their order.

use crate::helpers::*;
use reference::calendar::is_real_date;
use reference::{Answer, Book, Shipment, Stage, State, Waits, BOOK_BYTES};

/// Where ZS1's body begins, and its first row.
const BODY: usize = 10;
const ROWS: usize = BODY + 66;

/// The bytes of a row, and the place of the state among them.
const ROW: usize = 11;
const STATE: usize = 4;

/// ZS1 just taken in: the readings' bytes of form 1, and what A5 adds.
#[rustfmt::skip]
const ZS1: [u8; 109] = [
    0x02, 0x01, 0x0A, 0x00, 0x00, 0x00, 0x63, 0x00, 0x00, 0x00, 0x5A, 0x53, 0x31, 0x00, 0x00, 0x00,
    0x00, 0x00, 0x00, 0x00, 0x00, 0x00, 0x00, 0x00, 0x00, 0x00, 0x00, 0x03, 0x2F, 0x3E, 0x34, 0x01,
    0x41, 0x00, 0x5E, 0x01, 0x00, 0x00, 0x00, 0x00, 0x03, 0x00, 0x00, 0x00, 0x00, 0x00, 0x00, 0x00,
    0x00, 0x00, 0x00, 0x00, 0x00, 0x00, 0x00, 0x00, 0x00, 0x00, 0x00, 0x00, 0x00, 0x00, 0x00, 0x00,
    0x00, 0x00, 0x00, 0x00, 0x00, 0x00, 0x00, 0x00, 0x00, 0x00, 0x00, 0x00, 0x10, 0x27, 0x00, 0x00,
    0x00, 0x5E, 0x01, 0x00, 0x00, 0x00, 0x00, 0x88, 0x13, 0x00, 0x00, 0x0F, 0x5E, 0x01, 0x00, 0x00,
    0x00, 0x00, 0xF6, 0x09, 0x00, 0x00, 0x00, 0x5E, 0x01, 0x00, 0x00, 0x00, 0x00,
];

/// The same in form 1, which is the readings' example.
#[rustfmt::skip]
const ZS1_IN_FORM_1: [u8; 89] = [
    0x01, 0x01, 0x0A, 0x00, 0x00, 0x00, 0x4F, 0x00, 0x00, 0x00, 0x5A, 0x53, 0x31, 0x00, 0x00, 0x00,
    0x00, 0x00, 0x00, 0x00, 0x00, 0x00, 0x00, 0x00, 0x00, 0x00, 0x00, 0x03, 0x2F, 0x3E, 0x34, 0x01,
    0x41, 0x00, 0x5E, 0x01, 0x00, 0x00, 0x00, 0x00, 0x03, 0x00, 0x00, 0x00, 0x00, 0x00, 0x00, 0x00,
    0x00, 0x00, 0x00, 0x00, 0x00, 0x00, 0x00, 0x00, 0x00, 0x00, 0x00, 0x00, 0x00, 0x00, 0x00, 0x00,
    0x00, 0x00, 0x00, 0x00, 0x00, 0x00, 0x00, 0x00, 0x00, 0x00, 0x10, 0x27, 0x00, 0x00, 0x00, 0x88,
    0x13, 0x00, 0x00, 0x0F, 0xF6, 0x09, 0x00, 0x00, 0x00,
];

/// Every state with its byte.
fn states() -> Vec<(State, u8)> {
    let mut states = vec![
        (State::Open, 0),
        (State::Posted, 1),
        (State::Paid, 2),
        (State::Undelivered { k_waits: false }, 4),
        (State::Undelivered { k_waits: true }, 5),
    ];
    for (bits, (k, o)) in (0..).zip([(false, false), (true, false), (false, true), (true, true)]) {
        let waits = Waits { k, o };
        states.push((State::Withdrawn { waits }, 8 + bits));
        for fault in 1..=10 {
            states.push((State::Faulty { fault, waits }, 8 + 4 * fault + bits));
        }
    }
    states
}

/// ZS1's bytes with these at a place.
fn changed(place: usize, bytes: &[u8]) -> Vec<u8> {
    let mut stored = ZS1.to_vec();
    stored[place..][..bytes.len()].copy_from_slice(bytes);
    stored
}

/// The book of these bytes, which must be stored as the very same if there is
/// one.
fn unstored(bytes: &[u8]) -> Option<Book> {
    let book = Book::unstored(bytes);
    if let Some(book) = &book {
        assert!(book.is_sound());
        assert_eq!(book.stored(), bytes);
    }
    book
}

/// Stores a sound book and loads it again.
fn round_trip(book: &Book) {
    assert!(book.is_sound());
    let stored = book.stored();
    assert_eq!(book.store(), Ok(stored.clone()));
    assert_eq!(unstored(&stored).as_ref(), Some(book));
    let length = 2 + 74 * book.shipments.len() + 11 * book.row_count();
    assert_eq!(stored.len(), length);
}

/// A book of one Paired shipment with an order in each state.
fn every_state() -> Book {
    let states = states();
    let mut book = Book::empty();
    let draft = Draft::many("ZS1", states.len());
    assert_eq!(intake(&mut book, &draft), accepted(states.len() as u64, 0));
    transfer(&mut book, "EPEZZS1-201007-A-0-K", CAP - 7);
    transfer(&mut book, "EPEZZS1-201007-A-0-O", CAP);
    assert_eq!(pair(&mut book, "ZS1"), Answer::Paired);
    give_back(&mut book, "ZS1", ZWR, K);
    transfer(&mut book, "EPEZZS1-201007-A-0-K", 5);
    let shipment = &mut book.shipments[0];
    shipment.go_ahead = true;
    for (row, (state, _)) in shipment.rows.iter_mut().zip(states) {
        row.state = state;
    }
    book
}

/// A book of so many shipments of so many orders each.
fn book_of(shipments: usize, orders: usize) -> Book {
    let mut book = Book::empty();
    for number in 1..=shipments {
        let draft = Draft::many(&format!("AA{number}"), orders);
        assert_eq!(intake(&mut book, &draft), accepted(orders as u64, 0));
    }
    book
}

#[test]
fn the_worked_bytes() {
    assert_eq!(zs1_waiting().stored(), ZS1);
    assert_eq!(unstored(&ZS1), Some(zs1_waiting()));
    assert_eq!(Book::empty().stored(), [2, 0]);
    assert_eq!(unstored(&[2, 0]), Some(Book::empty()));
}

#[test]
fn the_longest_have_24_898_bytes() {
    let full = book_of(32, 64);
    assert_eq!(full.stored().len(), 24_898);
    round_trip(&full);
    assert_eq!(book_of(1, 2_048).stored().len(), 2 + 8 + 66 + 11 * 2_048);
}

#[test]
fn the_table_has_the_start_and_the_length_of_each_body() {
    let mut book = zs1_waiting();
    intake(&mut book, &Draft::many("AA1", 300));
    intake(&mut book, &Draft::many("MM1", 1));
    let stored = book.stored();
    #[rustfmt::skip]
    assert_eq!(
        stored[..26],
        [
            2, 3,
            26, 0, 0, 0, 99, 0, 0, 0,
            125, 0, 0, 0, 0x26, 0x0D, 0, 0,
            0xA3, 0x0D, 0, 0, 77, 0, 0, 0,
        ]
    );
    assert_eq!(stored[26..125], ZS1[BODY..]);
    assert_eq!(stored[125..128], *b"AA1");
    assert_eq!(stored[0xDA3..0xDA6], *b"MM1");
    assert_eq!(stored.len(), 0xDA3 + 77);
    round_trip(&book);
}

#[test]
fn every_field_has_its_place() {
    let mut book = Book::empty();
    let amounts = ["1234567.89", "50.00", "0.01"];
    let draft = Draft::new("ZS1", &amounts).tariff(876_543_210, 9_999);
    intake(&mut book, &draft);
    let shipment = &mut book.shipments[0];
    shipment.rows[1].state = State::Faulty {
        fault: 1,
        waits: Waits::BOTH,
    };
    shipment.name.identifier = b"ZSabcdefgh0123456".to_vec();
    shipment.name.date = 20_991_231;
    shipment.name.payment = b'B';
    shipment.name.kind = 4;
    shipment.stage = Stage::Closed;
    shipment.go_ahead = true;
    shipment.accepted_k = CAP;
    shipment.accepted_o = 0x0102_0304_0506;
    shipment.returned_k = 0x0605_0403_0201;
    shipment.returned_o = 7;
    let stored = book.stored();
    let body = &stored[BODY..];
    assert_eq!(body[..17], *b"ZSabcdefgh0123456");
    assert_eq!(body[17], 17);
    assert_eq!(body[18..22], [0xFF, 0x4C, 0x40, 0x01]);
    assert_eq!(body[22..24], [b'B', 4]);
    assert_eq!(body[24..28], 876_543_210u32.to_le_bytes());
    assert_eq!(body[28..32], [2, 1, 3, 0]);
    assert_eq!(body[32..40], [0xFF, 0x9F, 0x72, 0x4E, 0x18, 0x09, 0, 0]);
    assert_eq!(body[40..48], [6, 5, 4, 3, 2, 1, 0, 0]);
    assert_eq!(body[48..56], [1, 2, 3, 4, 5, 6, 0, 0]);
    assert_eq!(body[56..64], [7, 0, 0, 0, 0, 0, 0, 0]);
    assert_eq!(body[64..66], [0x0F, 0x27]);
    // 123,456,789 times 9,999 is 1,234,444,433,211: the first fee is the flat
    // part and 123,444,443 more, and 3,211 is left.
    #[rustfmt::skip]
    assert_eq!(
        body[66..],
        [
            0x15, 0xCD, 0x5B, 0x07, 0, 0xC5, 0x99, 0x9A, 0x3B, 0x8B, 0x0C,
            0x88, 0x13, 0x00, 0x00, 15, 0x71, 0x10, 0x3F, 0x34, 0x88, 0x13,
            0x01, 0x00, 0x00, 0x00, 0, 0xEA, 0xFC, 0x3E, 0x34, 0x0F, 0x27,
        ]
    );
    round_trip(&book);
}

#[test]
fn round_trips_in_every_stage_and_state() {
    round_trip(&Book::empty());
    let mut book = zs1_waiting();
    round_trip(&book);
    go_ahead(&mut book, "ZS1");
    transfer(&mut book, "EPEZZS1-201007-A-0-O", CAP);
    round_trip(&book);
    close(&mut book, "ZS1");
    give_back(&mut book, "ZS1", ZWR, O);
    round_trip(&book);
    round_trip(&zs1_paired());
    let book = every_state();
    round_trip(&book);
    let stored = book.stored();
    let rows = stored[ROWS..].chunks(ROW);
    for (row, (state, byte)) in rows.zip(states()) {
        assert_eq!(row[STATE], byte, "{state:?}");
    }
}

#[test]
fn equal_books_have_equal_bytes_and_others_have_others() {
    let mut books = vec![Book::empty(), zs1_waiting(), zs1_paired(), every_state()];
    books.extend([book_of(1, 2), book_of(2, 1), book_of(3, 1)]);
    for (place, book) in books.iter().enumerate() {
        assert_eq!(book.stored(), book.clone().stored());
        for other in &books[..place] {
            assert_ne!(book.stored(), other.stored());
        }
    }
}

/// May ZS1's bytes have this one at a place? Told field by field, from the
/// readings' tables and "Sound means".
fn may_stand(place: usize, byte: u8) -> bool {
    let stored = changed(place, &[byte]);
    let number = |from: usize, length: usize| {
        let bytes = stored[from..][..length].iter().rev();
        bytes.fold(0, |number, byte| number << 8 | u64::from(*byte))
    };
    match place {
        10 | 11 => byte.is_ascii_alphabetic(),
        12 => byte.is_ascii_alphanumeric(),
        28..=31 => is_real_date(number(28, 4)),
        32 => byte == b'A' || byte == b'B',
        33 => byte <= 4,
        // Closed is as sound as Waiting; Paired would need money.
        38 => byte == 0 || byte == 2,
        39 => byte <= 1,
        42..=49 => number(42, 8) <= CAP,
        50..=57 => number(50, 8) <= CAP,
        ROWS.. => {
            let in_row = (place - ROWS) % ROW;
            match in_row {
                0..=3 => (1..=999_999_999).contains(&number(place - in_row, 4)),
                STATE => byte == 0 || (15..=51).contains(&byte) && byte % 4 == 3,
                _ => byte == ZS1[place],
            }
        }
        // Flat part, rate, fee and remainder among them: with the rate 0 each
        // follows from the others.
        _ => byte == ZS1[place],
    }
}

#[test]
fn every_byte_of_zs1_changed_to_every_other() {
    for place in 0..ZS1.len() {
        for byte in 0..=255 {
            let stored = changed(place, &[byte]);
            let loads = unstored(&stored).is_some();
            assert_eq!(loads, may_stand(place, byte), "{byte} at {place}");
        }
    }
}

#[test]
fn with_a_rate_no_byte_of_money_may_change_alone() {
    let mut book = Book::empty();
    let amounts = ["100.00", "0.01", "33.33"];
    intake(&mut book, &Draft::new("ZS1", &amounts).tariff(350, 125));
    let stored = book.stored();
    round_trip(&book);
    // Flat part and rate of the head; amount, fee and remainder of each row.
    let mut places: Vec<usize> = (BODY + 24..BODY + 28).chain(BODY + 64..ROWS).collect();
    for row in 0..amounts.len() {
        let money = (0..ROW).filter(|place| *place != STATE);
        places.extend(money.map(|place| ROWS + ROW * row + place));
    }
    for place in places {
        for byte in (0..=255).filter(|byte| *byte != stored[place]) {
            let mut stored = stored.clone();
            stored[place] = byte;
            assert_eq!(unstored(&stored), None, "{byte} at {place}");
        }
    }
}

#[test]
fn every_byte_of_two_shipments_in_all_states_changed() {
    let mut book = every_state();
    let draft = Draft::new("ZS2", &["1.00"]).field(4, "");
    intake(&mut book, &draft.tariff(0, 9_999));
    let stored = book.stored();
    let mut loaded = 0;
    for place in 0..stored.len() {
        for byte in 0..=255 {
            let mut stored = stored.clone();
            stored[place] = byte;
            loaded += usize::from(unstored(&stored).is_some());
        }
    }
    assert!(loaded > stored.len(), "{loaded}");
}

#[test]
fn bytes_missing_and_bytes_behind() {
    for book in [Book::empty(), zs1_waiting(), every_state(), book_of(32, 2)] {
        let stored = book.stored();
        for length in 0..stored.len() {
            assert_eq!(unstored(&stored[..length]), None, "{length}");
        }
        for more in [1, 2, 11, 66, 74, 1_000] {
            for byte in [0, 1, 255] {
                let longer = [&stored[..], &vec![byte; more]].concat();
                assert_eq!(unstored(&longer), None, "{more} of {byte}");
            }
        }
    }
}

#[test]
fn forms_and_counts() {
    for form in 0..=255 {
        assert_eq!(unstored(&changed(0, &[form])).is_some(), form == 2);
        assert_eq!(unstored(&[form, 0]).is_some(), form == 2);
        assert_eq!(unstored(&[form]), None);
    }
    // "Only the newest form loads."
    assert_eq!(unstored(&ZS1_IN_FORM_1), None);
    assert_eq!(unstored(&[&[2], &ZS1_IN_FORM_1[1..]].concat()), None);
    // A count above 32, even with as many bodies.
    let stored = book_of(32, 1).stored();
    assert!(unstored(&stored).is_some());
    let mut bodies = Vec::new();
    let mut table = vec![2, 33];
    for place in 0..33u32 {
        table.extend((2 + 8 * 33 + 77 * place).to_le_bytes());
        table.extend(77u32.to_le_bytes());
        let mut body = ZS1[BODY..ROWS + ROW].to_vec();
        body[2] = b"0123456789abcdefghijklmnopqrstuvwxyz"[place as usize];
        body[30] = 1;
        bodies.extend(body);
    }
    assert_eq!(Book::unstored(&[&table[..], &bodies].concat()), None);
}

#[test]
fn starts_lengths_and_gaps() {
    for start in [0, 2, 9, 11, 76, 109, u32::MAX] {
        assert_eq!(unstored(&changed(2, &start.to_le_bytes())), None);
    }
    for length in [0, 66, 77, 88, 98, 100, 110, u32::MAX] {
        assert_eq!(unstored(&changed(6, &length.to_le_bytes())), None);
    }
    // A byte between the table and the body, with a start that says so.
    let mut gap = changed(2, &[11]);
    gap.insert(BODY, 0);
    assert_eq!(unstored(&gap), None);
    // Two bodies whose entries, or who themselves, change places.
    let mut book = zs1_waiting();
    intake(&mut book, &Draft::new("AA1", &["1.00", "2.00", "3.00"]));
    intake(&mut book, &Draft::many("MM1", 4));
    let stored = book.stored();
    let swap = |one: usize, other: usize, length: usize| {
        let mut swapped = stored.clone();
        for place in 0..length {
            swapped.swap(one + place, other + place);
        }
        swapped
    };
    assert_eq!(unstored(&swap(2, 10, 8)), None);
    assert_eq!(unstored(&swap(2, 10, 4)), None);
    assert_eq!(unstored(&swap(14, 22, 4)), None);
    // Bodies of equal length make another book.
    let other = unstored(&swap(26, 125, 99)).unwrap();
    assert_eq!(other.shipments[0], book.shipments[1]);
}

#[test]
fn order_counts_that_are_not_those_of_the_body() {
    for orders in [0u16, 1, 2, 4, 259, u16::MAX] {
        assert_eq!(unstored(&changed(40, &orders.to_le_bytes())), None);
    }
    // "an order in each shipment"
    let mut none = changed(6, &[66]);
    none[40] = 0;
    none.truncate(ROWS);
    assert_eq!(unstored(&none), None);
}

#[test]
fn more_than_2_048_rows() {
    let mut book = book_of(1, 2_048);
    assert!(unstored(&book.stored()).is_some());
    let row = book.shipments[0].rows[0].clone();
    book.shipments[0].rows.push(row);
    assert_eq!(unstored(&book.stored()), None);
    // In two shipments.
    let mut book = book_of(2, 1_024);
    assert!(unstored(&book.stored()).is_some());
    let row = book.shipments[1].rows[0].clone();
    book.shipments[1].rows.push(row);
    assert_eq!(unstored(&book.stored()), None);
}

#[test]
fn identifiers_and_what_lies_behind_them() {
    for length in 0..=255 {
        assert_eq!(unstored(&changed(27, &[length])).is_some(), length == 3);
    }
    for place in 13..27 {
        for byte in [1, b' ', b'1', b'a', 255] {
            assert_eq!(unstored(&changed(place, &[byte])), None);
        }
    }
    let mut longer = changed(13, b"4");
    longer[27] = 4;
    assert!(unstored(&longer).is_some());
    // "identifiers all different"
    let mut book = zs1_waiting();
    intake(&mut book, &Draft::new("ZS2", &["1.00"]));
    book.shipments[1].name.identifier = b"ZS1".to_vec();
    assert_eq!(unstored(&book.stored()), None);
}

/// Is the stored bytes' book, with its first shipment spoilt so, refused?
fn spoilt(book: &Book, spoil: impl Fn(&mut Shipment)) {
    let mut book = book.clone();
    assert!(unstored(&book.stored()).is_some());
    spoil(&mut book.shipments[0]);
    assert_eq!(unstored(&book.stored()), None, "{:?}", book.shipments[0]);
}

#[test]
fn books_that_are_not_sound() {
    let waiting = zs1_waiting();
    spoilt(&waiting, |shipment| shipment.name.date = 20_210_229);
    spoilt(&waiting, |shipment| shipment.name.payment = b'C');
    spoilt(&waiting, |shipment| shipment.name.kind = 5);
    spoilt(&waiting, |shipment| shipment.tariff.flat = 349);
    spoilt(&waiting, |shipment| shipment.tariff.rate = 1);
    spoilt(&waiting, |shipment| shipment.rows[2].fee.fee = 351);
    spoilt(&waiting, |shipment| shipment.rows[2].fee.remainder = 1);
    spoilt(&waiting, |shipment| shipment.accepted_k = CAP + 1);
    spoilt(&waiting, |shipment| shipment.accepted_o = u64::MAX);
    spoilt(&waiting, |shipment| {
        (shipment.accepted_o, shipment.returned_o) = (1, 1);
    });
    spoilt(&waiting, |shipment| shipment.rows[0].amount = 0);
    spoilt(&waiting, |shipment| shipment.rows[2].state = State::Paid);
    spoilt(&waiting, |shipment| {
        shipment.go_ahead = true;
        shipment.rows[1].state = State::Open;
    });
    let paired = zs1_paired();
    spoilt(&paired, |shipment| shipment.go_ahead = false);
    spoilt(&paired, |shipment| shipment.accepted_k -= 1);
    spoilt(&paired, |shipment| shipment.returned_o = 1);
    for stage in [Stage::Waiting, Stage::Closed] {
        spoilt(&paired, |shipment| {
            shipment.stage = stage;
            shipment.rows[0].state = State::Posted;
        });
    }
}

#[test]
fn storing_asks_10_and_then_30() {
    for book in [Book::empty(), zs1_waiting(), zs1_paired()] {
        let stored = book.stored();
        for length in 0..=stored.len() + 4 {
            let mut output = vec![0xAA; length];
            let answer = book.store_into(&mut output);
            if length < stored.len() {
                assert_eq!(answer, Err(30), "{length}");
                assert_eq!(output, vec![0xAA; length]);
            } else {
                assert_eq!(answer, Ok(stored.len()), "{length}");
                assert_eq!(output[..stored.len()], stored);
                assert_eq!(output[stored.len()..], vec![0xAA; length - stored.len()]);
            }
        }
    }
    let mut unsound = zs1_paired();
    unsound.shipments[0].accepted_k -= 1;
    assert_eq!(unsound.store(), Err(10));
    for length in [0, 108, 200] {
        let mut output = vec![0xAA; length];
        assert_eq!(unsound.store_into(&mut output), Err(10));
        assert_eq!(output, vec![0xAA; length]);
    }
}

#[test]
fn loading_asks_32_and_then_30() {
    let mut unsound = zs1_paired();
    unsound.shipments[0].accepted_k -= 1;
    // "Load never asks 10: the memory may hold anything."
    for held in [Book::empty(), zs1_paired(), unsound] {
        for memory in [BOOK_BYTES, BOOK_BYTES + 1, usize::MAX] {
            let mut book = held.clone();
            assert_eq!(book.load(memory, &ZS1), Ok(()));
            assert_eq!(book, zs1_waiting());
        }
        for memory in [0, 1, BOOK_BYTES - 1] {
            let mut book = held.clone();
            assert_eq!(book.load(memory, &ZS1), Err(30));
            assert_eq!(book.load(memory, &ZS1[..108]), Err(32));
            assert_eq!(book.load(memory, &[]), Err(32));
            assert_eq!(book, held);
        }
        let mut book = held.clone();
        assert_eq!(book.load(BOOK_BYTES, &changed(0, &[1])), Err(32));
        assert_eq!(book.load(BOOK_BYTES, &ZS1_IN_FORM_1), Err(32));
        assert_eq!(book, held);
    }
}

#[test]
fn a_whole_output_with_its_unused_end_is_no_stored_book() {
    let mut output = [0; 120];
    assert_eq!(zs1_waiting().store_into(&mut output), Ok(109));
    let mut book = Book::empty();
    assert_eq!(book.load(BOOK_BYTES, &output), Err(32));
    assert_eq!(book.load(BOOK_BYTES, &output[..109]), Ok(()));
}
