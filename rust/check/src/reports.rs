//! Which reports are asked for at random and in turn: most of them such that
//! they are written, the others with a value that cannot stand in its field.

use crate::numbers::Numbers;
use crate::orders::spoil_byte;
use crate::report::{Kind, Report};
use crate::values::{IDENTIFIERS, NO_TIMES};
use reference::{Book, MOST_SHIPMENTS};

/// Numbers at and beside the ends of the codes that go into either file.
const CODES: [u64; 12] = [
    0,
    1,
    99,
    100,
    307,
    308,
    336,
    337,
    901,
    1_308,
    308 + (1 << 32),
    u64::MAX,
];

/// How often a value is spoilt: once in so many times.
const SPOILT: usize = 16;

/// A report's own identifier, or a source's.
fn some_identifier(numbers: &mut Numbers) -> Vec<u8> {
    let identifier = numbers.pick(&IDENTIFIERS).as_bytes().to_vec();
    perhaps_spoilt(identifier, numbers)
}

/// An identifier, now and then with a byte spoilt.
fn perhaps_spoilt(mut identifier: Vec<u8>, numbers: &mut Numbers) -> Vec<u8> {
    if numbers.one_in(SPOILT) {
        spoil_byte(&mut identifier, numbers);
    }
    identifier
}

/// A creation time: any day up to the 28th of a month, any time, or now and
/// then none that there is.
fn some_time(numbers: &mut Numbers) -> u64 {
    if numbers.one_in(SPOILT) {
        return numbers.pick(&NO_TIMES);
    }
    let mut part = |first: u64, count: u64| first + numbers.any() % count;
    let parts = [
        part(2_000, 100),
        part(1, 12),
        part(1, 28),
        part(0, 24),
        part(0, 60),
        part(0, 60),
    ];
    parts.iter().fold(0, |time, part| time * 100 + part)
}

/// A table of codes: most often ten good ones, else of another length or with
/// some that are at an edge.
fn some_codes(numbers: &mut Numbers) -> Vec<u64> {
    let mut codes: Vec<u64> = (0..12).map(|_| 308 + numbers.any() % 29).collect();
    let length = if numbers.one_in(4) {
        numbers.below(13)
    } else {
        10
    };
    codes.truncate(length);
    if numbers.one_in(3) {
        for code in codes.iter_mut() {
            if numbers.one_in(3) {
                *code = numbers.pick(&CODES);
            }
        }
    }
    codes
}

/// An RKF with any verdict.
pub fn some_rkf(numbers: &mut Numbers) -> Report {
    Report {
        own: some_identifier(numbers),
        created: some_time(numbers),
        source: some_identifier(numbers),
        kind: Kind::Rkf(match numbers.below(4) {
            0 => 0,
            1 => numbers.pick(&CODES),
            _ => 100 + numbers.any() % 208,
        }),
    }
}

/// An OPE of any shipment of this book.
pub fn some_ope(book: &Book, numbers: &mut Numbers) -> Report {
    let identifier = match book.shipments.len() {
        0 => b"ZS1".to_vec(),
        count => book.shipments[numbers.below(count)].name.identifier.clone(),
    };
    Report {
        own: some_identifier(numbers),
        created: some_time(numbers),
        source: perhaps_spoilt(identifier, numbers),
        kind: Kind::Ope(some_codes(numbers)),
    }
}

/// How long the output for a report of this book is: a byte too short, exact,
/// longer, or anything up to that.
pub fn some_length(report: &Report, book: &Book, numbers: &mut Numbers) -> usize {
    let needed = report.file(Some(book)).map_or(64, |file| file.len());
    match numbers.below(6) {
        0 => needed - 1,
        1 | 2 => needed,
        3 => needed + 1,
        4 => needed + numbers.below(100),
        _ => numbers.below(needed),
    }
}

/// An OPE for memory that may hold anything, of the shipments of the book in it
/// in turn, and the length of its output: enough for a few faulty orders, or now
/// and then for no header.
pub fn in_turn(book: Option<&Book>, turn: u64) -> (Report, usize) {
    let mut shipments = book.iter().flat_map(|book| &book.shipments).cycle();
    let shipment = shipments.nth(turn as usize % MOST_SHIPMENTS);
    let report = Report {
        own: b"PP0000000003".to_vec(),
        created: 20_201_007_131_500,
        source: shipment.map_or(b"ZS1".to_vec(), |shipment| shipment.name.identifier.clone()),
        kind: Kind::Ope((308..318).collect()),
    };
    let length = if turn.is_multiple_of(7) { 47 } else { 200 };
    (report, length)
}
