//! Long dates in the titles of transfers (document 02, A1): the titles that the
//! readings name and their neighbours, with their answers; titles of all parts
//! that may stand beside a long date; every short title held to its long one;
//! and file names, which keep six digits.

use crate::calls::transfer;
use crate::coverage::Coverage;
use crate::draft::Draft;
use crate::layout::LENGTH;
use crate::naming::{nearly_long_dates, title, MONEYS};
use crate::run::Run;
use crate::stages;
use crate::telling::{end_with, told};
use crate::twin::Twin;
use reference::{Answer, Call, Money, Shipment, MOST_SUM};

/// Tries every such title and name.
pub fn check(coverage: &mut Coverage) {
    answers(coverage);
    all_parts(coverage);
    short_and_long(coverage);
    not_sound(coverage);
    file_names(coverage);
}

/// No titles (11): another century, no day, a letter, seven digits and nine, a
/// hyphen after the century, six digits that are a long date cut off; a good
/// long date with a wrong ending or none, with other parts too few, too many or
/// empty, in another place, and where the first part is hardly one.
const NO_TITLES: &str = "\
    EPEZZS1-19201007-A-0-K EPEZZS1-21201007-A-0-K EPEZZS1-00201007-A-0-K \
    EPEZZS1-20200230-A-0-K EPEZZS1-20210229-A-0-K EPEZZS1-20201307-A-0-K \
    EPEZZS1-2020100x-A-0-K EPEZZS1-20x01007-A-0-K EPEZZS1-2O201007-A-0-K \
    EPEZZS1-2020107-A-0-K EPEZZS1-2201007-A-0-K EPEZZS1-020201007-A-0-K \
    EPEZZS1-202010070-A-0-K EPEZZS1-2020201007-A-0-K EPEZZS1-20201007120000-A-0-K \
    EPEZZS1-20-201007-A-0-K EPEZZS1-2020-1007-A-0-K EPEZZS1-202010-A-0-K \
    EPEZZS1-20201007 EPEZZS1-20201007-K EPEZZS1-20201007-O EPEZZS1-20201007- \
    EPEZZS1-20201007-A-0 EPEZZS1-20201007-A-0- EPEZZS1-20201007-A-0-k \
    EPEZZS1-20201007-A-0-X EPEZZS1-20201007-A-0K EPEZZS1-20201007-A-0-KO \
    EPEZZS1-20201007-A-0-K-K EPEZZS1-20201007-A-0-20201007-K EPEZZS1-20201007-A-K \
    EPEZZS1-20201007-C-0-K EPEZZS1-20201007-A-5-K EPEZZS1--20201007-A-0-K \
    EPEZZS1-20201007--A-0-K EPEZZS1--20201007--A-0-K EPEZZS1-201007-20201007-A-0-K \
    EPEZZS1-A-20201007-0-K EPEZZS1-201007-A-20201007-K 20201007 20201007-K -20201007 \
    -20201007-K -20201007-A-0-K E-20201007-A-0-K EPE-20201007-A-0-K EPEZ-20201007-A-0-K \
    EPEZZS-20201007-A-0-K EPEP-20201007-A-0-K EPEPZS1-20201007-A-0-K \
    -EPEZZS1-20201007-A-0-K E-PEZZS1-20201007-A-0-K EPE-ZZS1-20201007-A-0-K";

/// Good titles of shipments that are not there (13): another identifier, date,
/// payment kind or benefit kind.
const UNKNOWN: [&str; 6] = [
    "EPEZZS3-20201007-A-0-K",
    "EPEZzS1-20201007-A-0-K",
    "EPEZZS1-20201008-A-0-K",
    "EPEZZS1-20101007-A-0-K",
    "EPEZZS1-20201007-B-0-K",
    "EPEZZS1-20201007-A-1-O",
];

/// Titles of ZS1, and of ZS2 whose day is the leap day of the year 2000.
const KNOWN: [&str; 4] = [
    "EPEZZS1-20201007-A-0-K",
    "EPEZZS1-20201007-A-0-O",
    "EPEZZS2-20000229-B-4-K",
    "EPEZZS2-20000229-B-4-O",
];

/// Long titles with their answers, 11 before 12 before 13 before 14.
fn answers(coverage: &mut Coverage) {
    let mut run = Run::begin("long titles".into(), 0, coverage);
    run.call(Draft::zs1().intake());
    run.call(leap_day().intake());
    for title in no_titles(&run.book().shipments[0]) {
        for amount in [0, 1] {
            run.expect(transfer(&title, amount), Answer::Refused(11));
        }
    }
    for title in UNKNOWN {
        run.expect(transfer(title, 0), Answer::Refused(12));
        run.expect(transfer(title, 1), Answer::Refused(13));
    }
    for title in KNOWN {
        run.expect(transfer(title, 0), Answer::Refused(12));
        run.expect(transfer(title, MOST_SUM + 1), Answer::Refused(12));
        run.expect(transfer(title, 1), Answer::Done);
        run.expect(transfer(title, MOST_SUM), Answer::Refused(14));
        run.expect(transfer(title, MOST_SUM - 1), Answer::Done);
        run.expect(transfer(title, 1), Answer::Refused(14));
    }
}

/// ZS2, of the leap day of the year 2000.
fn leap_day() -> Draft {
    let draft = Draft::new("ZS2", &[100]).with_benefit_date(20_000_229);
    let mut draft = draft.with_header(7, "20000229120000");
    draft.profile.today = 20_000_229;
    draft.with_payment("B").with_kind("4")
}

/// The texts that are no titles, and all whose date is nearly this shipment's
/// long one.
fn no_titles(shipment: &Shipment) -> Vec<String> {
    let nearly = nearly_long_dates(&shipment.name).into_iter();
    let nearly = nearly.map(|date| format!("EPEZZS1-{date}-A-0-K"));
    let listed = NO_TITLES.split_whitespace().map(String::from);
    listed.chain(nearly).collect()
}

/// What may stand before a title's second part: nothing, less than a first
/// part, ZS1's, one that is a byte too long, and ones with a hyphen too many.
const FIRST: [&str; 9] = [
    "",
    "E",
    "EPE",
    "EPEZ",
    "EPEZZS1",
    "EPEZZS1234567890123456",
    "EP-EZZS1",
    "-EPEZZS1",
    "EPEZZS1-",
];

/// What may stand behind a title's second part.
const REST: [&str; 12] = [
    "",
    "-",
    "-K",
    "-A-0",
    "-A-0-",
    "-A-0-K",
    "-A-0-O",
    "-A-0-k",
    "--A-0-K",
    "-B-0-K",
    "-A-0-K-K",
    "-20201007-K",
];

/// Second parts of six bytes, days and others.
const SIX: [&str; 7] = [
    "201007",
    "201008",
    "000229",
    "200230",
    "202010",
    "20100x",
    "2\0\u{7FF}07",
];

/// Second parts of other lengths, and of eight bytes that are no long date.
const OTHERS: [&str; 10] = [
    "",
    "2",
    "20",
    "2020107",
    "19201007",
    "21201007",
    "02201007",
    "020201007",
    "20-201007",
    "2020-1007",
];

/// Titles of these first parts, second parts and rests.
fn of_parts(second: &[&str]) -> Vec<String> {
    let mut titles = Vec::new();
    for first in FIRST {
        for (second, rest) in second.iter().flat_map(|part| REST.map(|rest| (part, rest))) {
            titles.push(format!("{first}-{second}{rest}"));
        }
    }
    titles
}

/// Every first part with every second part and every rest; and every month and
/// day, real or not, of some years in a long title.
fn all_parts(coverage: &mut Coverage) {
    let mut run = Run::begin("titles of all parts".into(), 0, coverage);
    run.call(Draft::zs1().intake());
    let mut titles = of_parts(&OTHERS);
    for year in [1920, 1999, 2000, 2004, 2020, 2021, 2096, 2099, 2100, 2120] {
        for (month, day) in (0..=13).flat_map(|month| (0..=32).map(move |day| (month, day))) {
            titles.push(format!("EPEZZS1-{year}{month:02}{day:02}-A-0-O"));
        }
    }
    let calls: Vec<Call> = titles.iter().map(|title| transfer(title, 1)).collect();
    run.attempt(&calls);
}

/// Each short title and its long one, with the same answer and the same book
/// after it: of every shipment in every stage, in either money, with amounts
/// about what there is room for; and of all parts.
fn short_and_long(coverage: &mut Coverage) {
    let mut run = Run::begin("short titles and long ones".into(), 0, coverage);
    stages::enter_all(&mut run);
    run.call(Draft::zs1().intake());
    let (twin, book) = (Twin::reading(run.bytes()), run.book().clone());
    for shipment in &book.shipments {
        for money in MONEYS {
            let short = title(&shipment.name, money);
            for amount in amounts(shipment, money) {
                alike(&short, amount, &twin, coverage);
            }
        }
    }
    for short in of_parts(&SIX) {
        alike(short.as_bytes(), 1, &twin, coverage);
    }
}

/// Amounts at the edges of what is an amount, and of what the shipment still
/// has room for.
fn amounts(shipment: &Shipment, money: Money) -> [u64; 7] {
    let room = MOST_SUM - shipment.accepted(money);
    [0, 1, room, room + 1, MOST_SUM, MOST_SUM + 1, u64::MAX]
}

/// Makes a transfer with a short title and with its long one, on two equal
/// books: are the answers equal, and the bytes after them?
fn alike(short: &[u8], amount: u64, twin: &Twin, coverage: &mut Coverage) {
    let [short, long] = [short.to_vec(), lengthened(short)].map(|title| {
        let call = Call::Transfer { title, amount };
        let mut copy = twin.clone();
        match copy.call(&call) {
            Ok(answer) => {
                coverage.note(&call, &answer, copy.book.as_ref());
                (call, answer, copy)
            }
            Err(difference) => end_with(&format!("{} -> ?\n{difference}", told(&call))),
        }
    });
    let ((call, answer, book), (long_call, long_answer, long_book)) = (short, long);
    if answer != long_answer || book.lent.bytes() != long_book.lent.bytes() {
        let (short, long) = (told(&call), told(&long_call));
        end_with(&format!(
            "{short} -> {answer:?}\n{long} -> {long_answer:?}\nor their books differ"
        ));
    }
}

/// A title with `20` behind its first hyphen.
fn lengthened(title: &[u8]) -> Vec<u8> {
    let hyphen = title.iter().position(|byte| *byte == b'-');
    let (before, from) = title.split_at(hyphen.expect("a title has a hyphen") + 1);
    [before, b"20", from].concat()
}

/// Where the book is not sound, 10 is answered to long titles too, good or not.
fn not_sound(coverage: &mut Coverage) {
    let mut memory = vec![0; LENGTH];
    memory[0] = 33;
    let mut twin = Twin::reading(&memory);
    for title in KNOWN.into_iter().chain(NO_TITLES.split_whitespace()) {
        let call = transfer(title, 0);
        assert_eq!(twin.call(&call), Ok(Answer::Refused(10)), "{title}");
        coverage.note(&call, &Answer::Refused(10), None);
    }
}

/// "File names keep six": a name with a long date is 016, whatever its century.
fn file_names(coverage: &mut Coverage) {
    let mut run = Run::begin("file names with long dates".into(), 0, coverage);
    for date in ["20201007", "19201007", "21201007", "2020100x"] {
        let mut draft = Draft::zs1();
        draft.parts[1] = date.into();
        run.expect(draft.intake(), Answer::Refused(16));
    }
}
