//! Stored books (document 02, A4, in A5's form): worked bytes; books of every
//! stage and state and full ones, stored into outputs of every kind and loaded
//! into memory that held anything; and stored bytes changed, cut off, with bytes
//! behind, and of books that are not sound.

use crate::calls::*;
use crate::coverage::Coverage;
use crate::draft::Draft;
use crate::layout::LENGTH;
use crate::numbers::Numbers;
use crate::run::Run;
use crate::stages;
use crate::storing::{five_others, with_byte};
use buntingraft::{Book, MOST_STORED_BYTES};
use reference::{Answer, Fee, Row, Shipment, Stage, State, Waits, MOST_AMOUNT, MOST_SUM};

/// ZS1 just taken in: the readings' bytes of form 1, and what A5 adds.
#[rustfmt::skip]
const ZS1: [u8; 109] = [
    0x02, 0x01, 0x0A, 0x00, 0x00, 0x00, 0x63, 0x00, 0x00, 0x00, 0x5A, 0x53, 0x31, 0x00, 0x00, 0x00,
    0x00, 0x00, 0x00, 0x00, 0x00, 0x00, 0x00, 0x00, 0x00, 0x00, 0x00, 0x03, 0x2F, 0x3E, 0x34, 0x01,
    0x41, 0x00, 0x5E, 0x01, 0x00, 0x00, 0x00, 0x00, 0x03, 0x00, 0x00, 0x00, 0x00, 0x00, 0x00, 0x00,
    0x00, 0x00, 0x00, 0x00, 0x00, 0x00, 0x00, 0x00, 0x00, 0x00, 0x00, 0x00, 0x00, 0x00, 0x00, 0x00,
    0x00, 0x00, 0x00, 0x00, 0x00, 0x00, 0x00, 0x00, 0x00, 0x00, 0x00, 0x00, 0x10, 0x27, 0x00, 0x00,
    0x00, 0x5E, 0x01, 0x00, 0x00, 0x00, 0x00, 0x88, 0x13, 0x00, 0x00, 0x0F, 0x5E, 0x01, 0x00, 0x00,
    0x00, 0x00, 0xF6, 0x09, 0x00, 0x00, 0x00, 0x5E, 0x01, 0x00, 0x00, 0x00, 0x00,
];

/// The readings' bytes of the same in form 1, which no longer loads.
#[rustfmt::skip]
const ZS1_IN_FORM_1: [u8; 89] = [
    0x01, 0x01, 0x0A, 0x00, 0x00, 0x00, 0x4F, 0x00, 0x00, 0x00, 0x5A, 0x53, 0x31, 0x00, 0x00, 0x00,
    0x00, 0x00, 0x00, 0x00, 0x00, 0x00, 0x00, 0x00, 0x00, 0x00, 0x00, 0x03, 0x2F, 0x3E, 0x34, 0x01,
    0x41, 0x00, 0x5E, 0x01, 0x00, 0x00, 0x00, 0x00, 0x03, 0x00, 0x00, 0x00, 0x00, 0x00, 0x00, 0x00,
    0x00, 0x00, 0x00, 0x00, 0x00, 0x00, 0x00, 0x00, 0x00, 0x00, 0x00, 0x00, 0x00, 0x00, 0x00, 0x00,
    0x00, 0x00, 0x00, 0x00, 0x00, 0x00, 0x00, 0x00, 0x00, 0x00, 0x10, 0x27, 0x00, 0x00, 0x00, 0x88,
    0x13, 0x00, 0x00, 0x0F, 0xF6, 0x09, 0x00, 0x00, 0x00,
];

/// Tries every such book.
pub fn check(coverage: &mut Coverage) {
    worked(coverage);
    every_byte(&Draft::zs1(), &ZS1, coverage);
    every_byte(&rated_draft(), &RATED, coverage);
    all_stages(coverage);
    full_books(coverage);
    questions(coverage);
}

/// Loads these bytes into a copy of the memory; they must not be a stored book.
fn refused(run: &mut Run, stored: &[u8]) {
    let answer = run.load_aside(stored);
    assert_eq!(answer, Answer::Refused(32), "{}", stored.escape_ascii());
}

/// ZS1 with two orders, a flat part and a rate, none of whose bytes is the same
/// as another's by chance: 1,234,567.89 at 9,999 ten-thousandths is 123,444,443
/// grosze, and 3,211 are left.
#[rustfmt::skip]
const RATED: [u8; 98] = [
    0x02, 0x01, 0x0A, 0x00, 0x00, 0x00, 0x58, 0x00, 0x00, 0x00, 0x5A, 0x53, 0x31, 0x00, 0x00, 0x00,
    0x00, 0x00, 0x00, 0x00, 0x00, 0x00, 0x00, 0x00, 0x00, 0x00, 0x00, 0x03, 0x2F, 0x3E, 0x34, 0x01,
    0x41, 0x00, 0xEA, 0xFC, 0x3E, 0x34, 0x00, 0x00, 0x02, 0x00, 0x00, 0x00, 0x00, 0x00, 0x00, 0x00,
    0x00, 0x00, 0x00, 0x00, 0x00, 0x00, 0x00, 0x00, 0x00, 0x00, 0x00, 0x00, 0x00, 0x00, 0x00, 0x00,
    0x00, 0x00, 0x00, 0x00, 0x00, 0x00, 0x00, 0x00, 0x00, 0x00, 0x0F, 0x27, 0x15, 0xCD, 0x5B, 0x07,
    0x00, 0xC5, 0x99, 0x9A, 0x3B, 0x8B, 0x0C, 0x88, 0x13, 0x00, 0x00, 0x0F, 0x71, 0x10, 0x3F, 0x34,
    0x88, 0x13,
];

/// The file that is stored so: its second order has no surname.
fn rated_draft() -> Draft {
    Draft::new("ZS1", &[123_456_789, 5_000])
        .with_field(2, 4, "")
        .with_tariff(876_543_210, 9_999)
}

/// Worked bytes: an empty book's, ZS1's, and those of a shipment with a rate; and
/// the readings' of forms 1 and 3, which are not the newest.
fn worked(coverage: &mut Coverage) {
    let mut run = Run::begin("the worked stored bytes".into(), 0, coverage);
    assert_eq!(run.store(2), Ok(vec![2, 0]));
    assert_eq!(run.load_aside(&[2, 0]), Answer::Done);
    refused(&mut run, &[1, 0]);
    run.call(Draft::zs1().intake());
    assert_eq!(run.store(109), Ok(ZS1.to_vec()));
    for stored in [&ZS1[..], &RATED] {
        assert_eq!(run.load_aside(stored), Answer::Done);
        let owned = Book::load(stored).expect("the worked bytes are a stored book");
        assert_eq!(owned.store().as_deref(), Ok(stored));
    }
    refused(&mut run, &ZS1_IN_FORM_1);
    refused(&mut run, &with_byte(&ZS1_IN_FORM_1, 0, 2));
    let mut raised = [&ZS1_IN_FORM_1[..74], &[0; 3]].concat();
    for row in ZS1_IN_FORM_1[74..].chunks(5) {
        raised.extend(row);
        raised.extend([0x5E, 1, 0, 0, 0, 0]);
    }
    (raised[0], raised[6]) = (3, 100);
    assert_eq!(raised.len(), 110);
    refused(&mut run, &raised);
}

/// A file's book with every byte of it changed to every other, in outputs of
/// every length, and with each two of its bytes changed by one.
fn every_byte(draft: &Draft, stored: &[u8], coverage: &mut Coverage) {
    let mut run = Run::begin("a small book stored".into(), 3, coverage);
    run.call(draft.intake());
    for length in 0..=stored.len() + 5 {
        let expected = if length < stored.len() {
            Err(30)
        } else {
            Ok(stored.to_vec())
        };
        assert_eq!(run.store(length), expected, "{length}");
    }
    for (place, good) in stored.iter().enumerate() {
        for byte in 0..=255 {
            let _ = run.load_aside(&with_byte(stored, place, byte));
        }
        for other in 0..place {
            let mut changed = with_byte(stored, place, good.wrapping_add(1));
            changed[other] = changed[other].wrapping_sub(1);
            let _ = run.load_aside(&changed);
        }
    }
    cut_and_longer(&mut run, stored);
    refused(&mut run, b"");
}

/// The book of all stages and states: stored and loaded, with every byte changed
/// in five ways, cut off, with bytes behind, its table and bodies in another
/// order, and with something unsound; and then filled in memory that it moved to,
/// and replayed without that.
fn all_stages(coverage: &mut Coverage) {
    let mut run = Run::begin("a book of all stages stored".into(), 0, coverage);
    stages::enter_all(&mut run);
    let stored = run.stored();
    outputs(&mut run, &stored);
    memories(&mut run, &stored);
    for (place, good) in stored.iter().enumerate() {
        for byte in five_others(*good) {
            let _ = run.load_aside(&with_byte(&stored, place, byte));
        }
    }
    cut_and_longer(&mut run, &stored);
    swapped(&mut run, &stored);
    unsound(&mut run);
    for byte in [0, 0xFF] {
        run.move_to(&vec![byte; LENGTH + 9]);
        assert_eq!(run.stored(), stored);
    }
    stages::fill(&mut run);
    run.replay(&mut Numbers::of(0, 5));
}

/// Full books: of all stages, of one shipment of 2,048 orders, and of 32 of 64.
fn full_books(coverage: &mut Coverage) {
    let mut run = Run::begin("a full book of all stages stored".into(), 1, coverage);
    stages::enter_all(&mut run);
    stages::fill(&mut run);
    full(&mut run, MOST_STORED_BYTES);
    for (shipments, orders) in [(1, 2_048), (32, 64), (32, 1)] {
        let title = format!("{shipments} shipments of {orders} orders stored");
        let mut run = Run::begin(title, 0, coverage);
        for place in 1..=shipments {
            let amounts: Vec<u64> = (1..=orders)
                .map(|order| order * MOST_AMOUNT / 2_048)
                .collect();
            let draft = Draft::new(&format!("FU{place}"), &amounts);
            run.call(draft.with_tariff(0, 313 * place as u64 % 10_001).intake());
        }
        assert_eq!(run.book().row_count(), shipments * orders as usize);
        full(
            &mut run,
            2 + 74 * shipments + 11 * shipments * orders as usize,
        );
    }
}

/// A full book of so many stored bytes: stored and loaded, with the bytes of its
/// table and some of the others changed, and cut off at some lengths.
fn full(run: &mut Run, length: usize) {
    let stored = run.stored();
    assert_eq!(stored.len(), length);
    outputs(run, &stored);
    memories(run, &stored);
    let bodies = 2 + 8 * usize::from(stored[1]);
    for place in (0..bodies).chain((bodies..length).step_by(7)) {
        for byte in five_others(stored[place]) {
            let _ = run.load_aside(&with_byte(&stored, place, byte));
        }
    }
    for cut in (0..length).step_by(61).chain([length - 11, length - 1]) {
        refused(run, &stored[..cut]);
    }
    refused(run, &[&stored[..], &[0]].concat());
    swapped(run, &stored);
}

/// Stores the book into outputs that are too short, exact and longer, and by the
/// bindings into one that held zeros.
fn outputs(run: &mut Run, stored: &[u8]) {
    let length = stored.len();
    for output in [0, 1, 2, length / 2, length - 2, length - 1] {
        assert_eq!(run.store(output), Err(30), "{output}");
    }
    for output in [length, length + 1, length + 64, length + MOST_STORED_BYTES] {
        assert_eq!(run.store(output).as_deref(), Ok(stored), "{output}");
    }
    let owned = Book::lent(run.bytes()).store();
    assert_eq!(owned.as_deref(), Ok(stored));
}

/// Loads the book into memory that held other things, and is too short, exact or
/// longer.
fn memories(run: &mut Run, stored: &[u8]) {
    let mut numbers = Numbers::of(0, 4);
    let random: Vec<u8> = (0..LENGTH).map(|_| numbers.any() as u8).collect();
    let (own, mut other) = (
        run.bytes()[..LENGTH].to_vec(),
        run.bytes()[..LENGTH].to_vec(),
    );
    other[0] = other[0].saturating_sub(1);
    for held in [own, other, random, vec![0; LENGTH], vec![0xFF; LENGTH]] {
        for length in [0, 1, 64, stored.len().min(LENGTH - 1), LENGTH - 1] {
            let answer = run.load_elsewhere(stored, &held[..length]);
            assert_eq!(answer, Answer::Refused(30), "{length}");
        }
        for behind in [0, 1, 64, 4_096] {
            let memory = [&held[..], &vec![0xD7; behind]].concat();
            assert_eq!(run.load_elsewhere(stored, &memory), Answer::Done);
        }
    }
}

/// Stored bytes cut off at every length, and with one or several bytes behind.
fn cut_and_longer(run: &mut Run, stored: &[u8]) {
    for length in 0..stored.len() {
        refused(run, &stored[..length]);
    }
    for more in [1, 2, 8, 11, 66, 77, 74, stored.len()] {
        for byte in [0, 1, 0xFF] {
            refused(run, &[stored, &vec![byte; more]].concat());
        }
    }
    refused(run, &[stored, stored].concat());
    refused(run, &stored[1..]);
    refused(run, &[&[2], stored].concat());
}

/// Stored bytes with two entries of the table, two starts or two lengths swapped,
/// two bodies swapped with their entries and without, and a gap before each body.
fn swapped(run: &mut Run, stored: &[u8]) {
    let count = usize::from(stored[1]);
    for first in 0..count {
        for second in first + 1..count {
            for (from, length) in [(0, 8), (0, 4), (4, 4)] {
                let mut swapped = stored.to_vec();
                for place in from..from + length {
                    swapped.swap(2 + 8 * first + place, 2 + 8 * second + place);
                }
                let _ = run.load_aside(&swapped);
            }
        }
    }
    let table = 2 + 8 * count;
    for second in 1..count {
        let mut other = run.book().clone();
        other.shipments.swap(second - 1, second);
        let bodies = other.stored();
        assert_eq!(run.load_aside(&bodies), Answer::Done);
        let _ = run.load_aside(&[&stored[..table], &bodies[table..]].concat());
    }
    for shipment in 0..count {
        let start = |place: usize| {
            let bytes = &stored[2 + 8 * place..][..4];
            u32::from_le_bytes(bytes.try_into().expect("four bytes"))
        };
        let mut gap = stored.to_vec();
        gap.insert(start(shipment) as usize, 0);
        refused(run, &gap);
        for later in shipment..count {
            gap[2 + 8 * later..][..4].copy_from_slice(&(start(later) + 1).to_le_bytes());
        }
        refused(run, &gap);
    }
}

/// A way to make a shipment of any stage unsound.
type Spoil = fn(&mut Shipment);

/// Ways to make any shipment unsound.
const SPOILS: [Spoil; 22] = [
    |shipment| shipment.name.identifier.truncate(2),
    |shipment| shipment.name.identifier[0] = b'1',
    |shipment| shipment.name.date = 20_210_229,
    |shipment| shipment.name.date = 19_991_231,
    |shipment| shipment.name.payment = b'C',
    |shipment| shipment.name.kind = 5,
    |shipment| shipment.tariff.flat = MOST_AMOUNT + 1,
    |shipment| shipment.tariff.flat += 1,
    |shipment| shipment.tariff.rate += 1,
    |shipment| shipment.tariff.rate = u64::from(u16::MAX),
    |shipment| shipment.rows[0].fee.fee += 1,
    |shipment| shipment.rows[0].fee.fee += 1 << 28,
    |shipment| shipment.rows[0].fee.remainder += 1,
    |shipment| {
        shipment.rows[0].fee.fee = shipment.rows[0].fee.fee.wrapping_sub(1);
        shipment.rows[0].fee.remainder += 10_000;
    },
    |shipment| shipment.accepted_k = MOST_SUM + 1,
    |shipment| shipment.accepted_o = u64::MAX,
    |shipment| shipment.returned_k = shipment.accepted_k + 1,
    |shipment| shipment.returned_o = u64::MAX,
    |shipment| shipment.rows.clear(),
    |shipment| shipment.rows[0].amount = 0,
    |shipment| shipment.rows[0].amount = MOST_AMOUNT + 1,
    |shipment| {
        shipment.stage = Stage::Closed;
        shipment.rows[0].state = State::Faulty {
            fault: 3,
            waits: Waits { k: true, o: false },
        };
    },
];

/// Stored bytes of books that are not sound: each shipment spoilt in each way, two
/// with one identifier, more rows than a book has, and more shipments.
fn unsound(run: &mut Run) {
    let book = run.book().clone();
    for place in 0..book.shipments.len() {
        for spoil in SPOILS {
            let mut spoilt = book.clone();
            spoil(&mut spoilt.shipments[place]);
            refused(run, &spoilt.stored());
        }
        let mut doubled = book.clone();
        doubled.shipments.push(book.shipments[place].clone());
        refused(run, &doubled.stored());
    }
    let mut larger = book.clone();
    let row = Row {
        amount: 1,
        fee: Fee {
            fee: 350,
            remainder: 0,
        },
        state: State::Open,
    };
    let closed = larger.shipments.last_mut().expect("a Closed shipment");
    let room = reference::MOST_ROWS - book.row_count();
    closed.rows.resize(closed.rows.len() + room, row.clone());
    assert_eq!(run.load_aside(&larger.stored()), Answer::Done);
    larger
        .shipments
        .last_mut()
        .expect("the same")
        .rows
        .push(row);
    refused(run, &larger.stored());
    let mut more = book.clone();
    let newest = more.shipments.last().expect("a shipment").clone();
    for place in more.shipments.len()..=reference::MOST_SHIPMENTS {
        let mut shipment = newest.clone();
        shipment.name.identifier = format!("MO{place}").into_bytes();
        let before = more.stored();
        assert_eq!(run.load_aside(&before), Answer::Done);
        more.shipments.push(shipment);
    }
    refused(run, &more.stored());
}

/// Two questions broken at once: 10 comes before 30 on storing, and 32 before 30
/// on loading, whatever the memory holds.
fn questions(coverage: &mut Coverage) {
    let mut run = Run::begin("storing and loading refused".into(), 0, coverage);
    run.call(Draft::zs1().intake());
    run.call(transfer("EPEZZS1-201007-A-0-K", 17_550));
    let stored = run.stored();
    let bad = with_byte(&stored, 0, 1);
    let good = run.bytes().to_vec();
    let unsound = with_byte(&good, 0, 33);
    for memory in [&good, &unsound] {
        for length in [0, 1, LENGTH - 1] {
            let short = &memory[..length];
            assert_eq!(run.load_elsewhere(&bad, short), Answer::Refused(32));
            assert_eq!(run.load_elsewhere(&[], short), Answer::Refused(32));
            assert_eq!(run.load_elsewhere(&stored, short), Answer::Refused(30));
        }
        assert_eq!(run.load_elsewhere(&bad, memory), Answer::Refused(32));
        assert_eq!(run.load_elsewhere(&stored, memory), Answer::Done);
    }
    for memory in [&unsound[..], &good[..LENGTH - 1], &[]] {
        for length in [0, 1, stored.len() - 1, stored.len(), MOST_STORED_BYTES] {
            run.store_elsewhere(memory, length, Err(10));
        }
    }
    run.store_elsewhere(&good, stored.len() - 1, Err(30));
    run.store_elsewhere(&good, stored.len(), Ok(stored.len()));
}
