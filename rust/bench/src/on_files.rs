//! What is measured on order files: intake, UTF-8 alone, and what the parts of
//! an intake cost.

use crate::table::{Table, INTAKE, NONE};
use crate::timing::{Clock, Effort};
use bench::calls::{agreed, Answer, Archive, Call, Rival, Twin};
use bench::files::{order_file, with_a_rate, OrderFile, Records, PROFILE, RATED};
use buntingraft::{Profile, BOOK_BYTES};

const FULL: Effort = Effort {
    turns: 60,
    calls: 5,
};

/// Intake of a full file, by a profile without a rate and with one, and of one
/// that is refused with 904.
pub fn intake(clock: &Clock) -> Table {
    let mut table = Table::new("Intake into an empty book", "twin", INTAKE);
    let long = Effort {
        turns: 80,
        calls: 1,
    };
    let lines = [
        ("2,048 orders, ASCII", 2_048, Records::Ascii, FULL),
        ("2,048 orders, Polish", 2_048, Records::Polish, FULL),
        (
            "2,048 orders, Polish, every fifth faulty",
            2_048,
            Records::Faulty,
            FULL,
        ),
        (
            "100,000 orders, refused with 904",
            100_000,
            Records::Polish,
            long,
        ),
    ];
    for profile in [&PROFILE, &RATED] {
        for (line, orders, records, effort) in lines {
            let file = order_file("ZS1", orders, records);
            let times = race(clock, effort, profile, &file.name, &file.bytes);
            let line = format!("{line}{}", with_a_rate(profile));
            table.add_pass(&line, file.bytes.len(), times);
        }
    }
    table
}

/// The times of an intake into an empty book: the archive's and the twin's.
fn race(clock: &Clock, effort: Effort, profile: &Profile, name: &[u8], file: &[u8]) -> [f64; 2] {
    let call = Call::Intake(profile, name, file);
    agreed(&[0; BOOK_BYTES], &call);
    let entries = [(Archive::make as _, call), (Twin::<true>::make as _, call)];
    clock.race(effort, &[0; BOOK_BYTES], entries)
}

/// UTF-8 alone: an intake that 003 refuses, against the standard library.
pub fn utf8(clock: &Clock) -> Table {
    let mut table = Table::new("UTF-8 alone", "from_utf8", NONE);
    let wide = "\u{FEFF}".to_owned() + &"漢字かな🙂交じり文𝒳".repeat(8_000);
    let lines = [
        (
            "ASCII order file",
            order_file("ZS1", 2_048, Records::Ascii).bytes,
        ),
        (
            "Polish order file",
            order_file("ZS1", 2_048, Records::Polish).bytes,
        ),
        ("characters of 3 and 4 bytes", wide.into_bytes()),
    ];
    for (line, file) in lines {
        let call = Call::Intake(&PROFILE, b"no hyphens", &file);
        let entries = [(Archive::make as _, call), (check_utf8 as _, call)];
        let times = clock.race(FULL, &[0; BOOK_BYTES], entries);
        table.add_pass(line, file.len(), times);
    }
    table
}

/// Checks the file of an intake with the standard library, and does no more.
fn check_utf8(_: &mut [u8], call: &Call) -> Answer {
    match call {
        Call::Intake(_, _, file) if std::str::from_utf8(file).is_ok() => Answer::Done,
        _ => Answer::Refused(34),
    }
}

/// What the parts of an intake cost, by intakes that stop later and later.
pub fn parts_of_intake(clock: &Clock) -> Table {
    let title = "Parts of an intake of 2,048 orders, Polish, every fifth faulty";
    let mut table = Table::new(title, "twin", NONE);
    let one = order_file("ZS1", 1, Records::Polish);
    let header = race(clock, FULL, &PROFILE, &one.name, &stating(&one, "0.00"));
    table.add_call("one order, refused with 131: name and header", header);
    let file = order_file("ZS1", 2_048, Records::Faulty);
    let other_sum = stating(&file, "0.01");
    let lines: [(&str, &[u8], &[u8]); 3] = [
        ("refused with 3: UTF-8", b"no hyphens", &file.bytes),
        (
            "refused with 132: and all records judged",
            &file.name,
            &other_sum,
        ),
        ("accepted: and all orders taken in", &file.name, &file.bytes),
    ];
    for (line, name, bytes) in lines {
        table.add_pass(line, bytes.len(), race(clock, FULL, &PROFILE, name, bytes));
    }
    table
}

/// The file with another sum in its header.
fn stating(file: &OrderFile, sum: &str) -> Vec<u8> {
    let text = std::str::from_utf8(&file.bytes).expect("an order file is UTF-8");
    let (header, records) = text.split_once("\r\n").expect("an order file has a header");
    let (fields, _) = header.rsplit_once('|').expect("a header has fields");
    format!("{fields}|{sum}\r\n{records}").into_bytes()
}
