//! The report on a shipment's faulty orders (document 02, A2): the readings'
//! worked file byte by byte; each fault with tables of every length and codes at
//! every edge; shipments in every stage, after OPR too; none to 2,048 faulty
//! orders; outputs of every length; and the order of its questions.

use super::bytes::changed;
use super::rkf::every_length;
use crate::coverage::Coverage;
use crate::draft::Draft;
use crate::report::{Kind, Report};
use crate::run::Run;
use crate::stages;
use crate::telling::end_with;
use crate::twin::Twin;
use crate::values::{days_and_times, IDENTIFIERS, NO_IDENTIFIERS, NO_TIMES, TIMES};
use buntingraft::{Book, MOST_OPE_BYTES};
use reference::MOST_ROWS;

/// The identifier and the creation time of the readings' own report.
const OWN: &[u8] = b"PP0000000003";
const CREATED: u64 = 20_201_007_131_500;

/// A table with another code for each fault: 308 for 1 to 317 for 10.
const CODES: [u64; 10] = [308, 309, 310, 311, 312, 313, 314, 315, 316, 317];

/// Codes that are none, and those at the ends of what there is.
const NO_CODES: [u64; 8] = [0, 1, 103, 307, 337, 564, (1 << 32) + 308, u64::MAX];
const END_CODES: [u64; 2] = [308, 336];

/// Tries every such report.
pub fn check(coverage: &mut Coverage) {
    worked(coverage);
    tables(coverage);
    every_stage(coverage);
    counts(coverage);
    questions(coverage);
}

/// A report with the readings' own identifier and creation time.
fn ope(identifier: &[u8], codes: &[u64]) -> Report {
    ope_of(identifier, OWN, CREATED, codes)
}

/// A report.
fn ope_of(identifier: &[u8], own: &[u8], created: u64, codes: &[u64]) -> Report {
    Report {
        own: own.to_vec(),
        created,
        source: identifier.to_vec(),
        kind: Kind::Ope(codes.to_vec()),
    }
}

/// The file whose records, behind the mark of a record, are these.
fn file_of(identifier: &str, records: &[String]) -> String {
    let count = records.len();
    let header = format!("1|PP|OPE|1.0|PP0000000003|20201007131500|EPE|{identifier}|{count}");
    let records: String = records
        .iter()
        .map(|record| format!("\r\n2|{record}"))
        .collect();
    format!("\u{FEFF}{header}{records}")
}

/// The worked file of ZS1, with identifiers and creation times, good and bad.
fn worked(coverage: &mut Coverage) {
    let mut run = Run::begin("OPE of ZS1".into(), 3, coverage);
    run.call(Draft::zs1().intake());
    let file = "\u{FEFF}1|PP|OPE|1.0|PP0000000003|20201007131500|EPE|ZS1|1\r\n2|1|2|308";
    assert_eq!(file.len(), 64, "the readings count 64 bytes");
    expect_file(&mut run, "ZS1", &CODES, file);
    every_length(&mut run, &ope(b"ZS1", &CODES), 64);
    for (own, created) in IDENTIFIERS.into_iter().zip(TIMES) {
        let length = 52 + own.len();
        let report = ope_of(b"ZS1", own.as_bytes(), created, &CODES);
        run.expect_report(&report, length, Ok(length));
    }
    for own in NO_IDENTIFIERS {
        let report = ope_of(b"ZS1", own, CREATED, &CODES);
        run.expect_report(&report, 99, Err(31));
    }
    for created in NO_TIMES {
        let report = ope_of(b"ZS1", OWN, created, &CODES);
        run.expect_report(&report, 99, Err(31));
    }
    for created in days_and_times() {
        let _ = run.report(&ope_of(b"ZS1", OWN, created, &CODES), 64);
    }
    for text in changed(b"ZS1") {
        let _ = run.report(&ope_of(b"ZS1", &text, CREATED, &CODES), 64);
        let _ = run.report(&ope(&text, &CODES), 64);
    }
}

/// Is this the file of a shipment, in outputs that are a byte too short, exact
/// and longer, and by the bindings' own report?
fn expect_file(run: &mut Run, identifier: &str, codes: &[u64], file: &str) {
    let report = ope(identifier.as_bytes(), codes);
    run.expect_report(&report, file.len() - 1, Err(30));
    run.expect_report(&report, file.len() + 1, Ok(file.len()));
    let written = run.report(&report, file.len());
    assert_eq!(written, Ok(file.into()), "{report}");
    let book = Book::lent(run.bytes());
    let owned = book.write_ope(identifier.as_bytes(), OWN, CREATED, codes);
    assert_eq!(owned, Ok(file.into()), "{report}");
}

/// A shipment for each fault, FA0 without one and FA11 with all of them: tables
/// of 0 to 12 entries, entries that are not used of any kind, and used ones at
/// every edge.
fn tables(coverage: &mut Coverage) {
    let mut run = Run::begin("OPE of each fault".into(), 0, coverage);
    let all: Vec<u8> = (0..=10).collect();
    for fault in 0..=10 {
        enter(&mut run, &format!("FA{fault}"), &[0, fault]);
    }
    enter(&mut run, "FA11", &all);
    no_fault(&mut run);
    for fault in 1..=10 {
        one_fault(&mut run, fault);
    }
    let record = |fault: &u8| format!("{fault}|{}|{}", fault + 1, 307 + u16::from(*fault));
    let records: Vec<String> = all[1..].iter().map(record).collect();
    expect_file(&mut run, "FA11", &CODES, &file_of("FA11", &records));
    for place in 0..10 {
        run.expect_report(&ope(b"FA11", &CODES[..place]), 400, Err(31));
        for code in NO_CODES {
            let report = ope(b"FA11", &with(CODES, place, code));
            run.expect_report(&report, 400, Err(31));
        }
    }
}

/// Takes in a file whose orders have these faults, 0 for none.
fn enter(run: &mut Run, identifier: &str, faults: &[u8]) {
    let mut draft = Draft::new(identifier, &vec![1; faults.len()]);
    for (order, fault) in (1..).zip(faults) {
        draft = draft.with_fault(order, *fault);
    }
    let faulty = faults.iter().filter(|fault| **fault > 0).count() as u64;
    let orders = faults.len() as u64;
    run.expect(
        draft.intake(),
        reference::Answer::Accepted { orders, faulty },
    );
}

/// A table with one of its codes changed.
fn with(mut codes: [u64; 10], place: usize, code: u64) -> [u64; 10] {
    codes[place] = code;
    codes
}

/// The shipment without a faulty order: no entry of any table is looked at.
fn no_fault(run: &mut Run) {
    let file = file_of("FA0", &[]);
    for (unused, length) in NO_CODES.iter().zip([0, 1, 5, 9, 10, 11, 12, 10]) {
        expect_file(run, "FA0", &vec![*unused; length], &file);
    }
}

/// The shipment whose second order alone has this fault: a used entry must be
/// there and a code, the others may be anything.
fn one_fault(run: &mut Run, fault: u8) {
    let id = format!("FA{fault}");
    let place = usize::from(fault) - 1;
    let file = |code: u64| file_of(&id, &[format!("1|2|{code}")]);
    let twelve: Vec<u64> = (308..320).collect();
    for length in 0..=12 {
        let codes = &twelve[..length];
        match codes.get(place) {
            Some(code) => expect_file(run, &id, codes, &file(*code)),
            None => run.expect_report(&ope(id.as_bytes(), codes), 99, Err(31)),
        }
    }
    for unfit in NO_CODES {
        expect_file(run, &id, &with([unfit; 10], place, 320), &file(320));
        let used = ope(id.as_bytes(), &with(CODES, place, unfit));
        run.expect_report(&used, 99, Err(31));
    }
    for code in END_CODES {
        expect_file(run, &id, &with(CODES, place, code), &file(code));
    }
}

/// The faulty orders of the shipments in all stages and what their records say,
/// worked out by hand. Of PB1 the amounts went back by OPR, of PC1 and RB1 the
/// fees, of the longest both, of PZ1 amounts where fees are 0.
const RECORDS: [(&str, &[&str]); 15] = [
    ("ZS1", &["1|2|308"]),
    ("WA1", &["1|1|308"]),
    ("GA1", &["1|2|309", "2|3|317"]),
    ("OK1", &[]),
    ("PA1", &["1|10|311"]),
    ("PB1", &["1|2|316"]),
    ("PC1", &["1|2|316"]),
    (stages::LONGEST, &["1|2|316"]),
    ("PZ1", &["1|2|316"]),
    ("RW1", &["1|2|308"]),
    ("RA1", &["1|8|310", "2|9|315"]),
    ("RB1", &["1|1|316", "2|2|308"]),
    ("RC1", &[]),
    ("CL1", &["1|1|310"]),
    ("CN1", &[]),
];

/// Shipments in every stage, with orders in every state.
fn every_stage(coverage: &mut Coverage) {
    let mut run = Run::begin("OPE of all stages".into(), 0, coverage);
    run.call(Draft::zs1().intake());
    stages::enter_all(&mut run);
    assert_eq!(run.book().shipments.len(), RECORDS.len());
    for (id, records) in RECORDS {
        let records: Vec<String> = records.iter().map(|record| record.to_string()).collect();
        let file = file_of(id, &records);
        expect_file(&mut run, id, &CODES, &file);
        every_length(&mut run, &ope(id.as_bytes(), &CODES), file.len());
    }
}

/// Shipments of so many faulty orders, alone and with as many good ones between
/// them, each in a book that has another shipment before it.
fn counts(coverage: &mut Coverage) {
    for count in [1, 9, 10, 99, 100, 1_000] {
        let alone = vec![10; count];
        let between: Vec<u8> = alone.iter().flat_map(|fault| [0, *fault]).collect();
        for (faults, step) in [(alone, 1), (between, 2)] {
            let title = format!("OPE of {count} among {} orders", faults.len());
            let mut run = Run::begin(title, 0, coverage);
            enter(&mut run, "FI1", &[1, 2, 3]);
            enter(&mut run, "CO1", &faults);
            let record = |running| format!("{running}|{}|317", step * running);
            let records: Vec<String> = (1..=count).map(record).collect();
            expect_file(&mut run, "CO1", &CODES, &file_of("CO1", &records));
        }
    }
    most(coverage);
}

/// As many faulty orders as a book has rows, and the longest identifiers.
fn most(coverage: &mut Coverage) {
    let mut run = Run::begin("OPE of 2,048 orders".into(), 0, coverage);
    enter(&mut run, stages::LONGEST, &[1; MOST_ROWS]);
    let record = |order| format!("{order}|{order}|308");
    let records: Vec<String> = (1..=MOST_ROWS).map(record).collect();
    let file = file_of(stages::LONGEST, &records);
    expect_file(&mut run, stages::LONGEST, &CODES, &file);
    let id = stages::LONGEST.as_bytes();
    let longest = ope_of(id, &[b'z'; 17], 20_991_231_235_959, &[336]);
    run.expect_report(&longest, MOST_OPE_BYTES - 1, Err(30));
    run.expect_report(&longest, MOST_OPE_BYTES, Ok(MOST_OPE_BYTES));
    run.expect_report(&longest, 2 * MOST_OPE_BYTES, Ok(MOST_OPE_BYTES));
}

/// The questions of an OPE, in their order.
const QUESTIONS: [u32; 4] = [10, 13, 31, 30];

/// Texts that are the identifier of no shipment in a book of ZS1 alone.
const UNKNOWN: [&[u8]; 7] = [
    b"",
    b"ZS",
    b"zs1",
    b"ZS2",
    b"ZS1\0",
    b"ZS1 ",
    b"ZS1ZS1ZS1ZS1ZS1ZS1",
];

/// Each question broken alone and with all others, in some ways, where the first
/// of them must answer.
fn questions(coverage: &mut Coverage) {
    let mut run = Run::begin("questions of an OPE".into(), 0, coverage);
    run.call(Draft::zs1().intake());
    let sound = run.bytes().to_vec();
    let mut unsound = sound.clone();
    unsound[0] = 33;
    for which in 0..1 << QUESTIONS.len() {
        let broken = [0, 1, 2, 3].map(|place| which & (1 << place) != 0);
        let first = broken.iter().position(|broken| *broken);
        let expected = first.map_or(Ok(64), |place| Err(QUESTIONS[place]));
        let mut twin = Twin::reading(if broken[0] { &unsound } else { &sound });
        for (report, length) in broken_in_some_ways(broken) {
            let written = match twin.report(&report, length) {
                Ok(written) => written,
                Err(difference) => end_with(&format!("{}\n{difference}", report.told(length))),
            };
            coverage.note_report(&report, twin.book.as_ref(), &written);
            let answer = written.map(|file| file.len());
            assert_eq!(answer, expected, "{}", report.told(length));
        }
    }
}

/// Reports on ZS1 and the lengths of their outputs, in which 13, 31 and 30 are
/// broken or not.
fn broken_in_some_ways([_, unknown, unfit, short]: [bool; 4]) -> Vec<(Report, usize)> {
    let identifiers: &[&[u8]] = if unknown { &UNKNOWN } else { &[b"ZS1"] };
    let values: &[(&[u8], u64, &[u64])] = if unfit {
        &[
            (OWN, CREATED, &[]),
            (OWN, CREATED, &[307]),
            (OWN, 0, &CODES),
            (b"", CREATED, &CODES),
            (b"PP", u64::MAX, &[]),
        ]
    } else {
        &[(OWN, CREATED, &CODES), (OWN, CREATED, &[308])]
    };
    let lengths: &[usize] = if short { &[0, 63] } else { &[64, 99] };
    let mut reports = Vec::new();
    for identifier in identifiers {
        for (own, created, codes) in values {
            let report = ope_of(identifier, own, *created, codes);
            reports.extend(lengths.iter().map(|length| (report.clone(), *length)));
        }
    }
    reports
}
