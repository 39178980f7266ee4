//! Journals: one that has every call, with each of its bytes changed and cut off
//! at every length; intakes of every number of numbers; lengths at the end of the
//! numbers; tables that are too short; memory that holds no empty book.

use crate::calls::*;
use crate::coverage::Coverage;
use crate::draft::Draft;
use crate::journal::{recounted, written, Entry};
use crate::layout::LENGTH;
use crate::replay::{by_the_bindings, check_bytes, check_memory, check_places};
use crate::telling::end_with;
use crate::twin::Twin;
use buntingraft::{Money, Route};
use reference::Call;

/// Tries every such journal.
pub fn check(coverage: &mut Coverage) {
    let calls = every_call();
    let entries: Vec<Entry> = calls.iter().map(Entry::of).collect();
    let journal = written(&entries);
    assert_eq!(by_the_bindings(&calls).bytes(), journal);
    let mut try_bytes = |what: String, bytes: &[u8]| {
        if let Err(difference) = check_bytes(bytes, coverage) {
            end_with(&format!("journal {what}: {difference}"));
        }
    };
    try_bytes("as it is".into(), &journal);
    for length in 0..journal.len() {
        try_bytes(format!("of {length} bytes"), &journal[..length]);
    }
    for place in 0..journal.len() {
        for change in [0x01, 0x02, 0x80, 0xFF] {
            let mut bytes = journal.clone();
            bytes[place] ^= change;
            try_bytes(format!("with byte {place} changed by {change}"), &bytes);
        }
    }
    for count in [0, 1, entries.len() as u64 + 1, 1 << 32, u64::MAX] {
        try_bytes(format!("of {count}"), &recounted(&journal, count));
    }
    for (what, bytes) in long_texts().into_iter().chain(some_numbers()) {
        try_bytes(what, &bytes);
    }
    if let Err(difference) = check_places(&journal, 0..entries.len(), coverage) {
        end_with(&format!("a journal and a short table: {difference}"));
    }
    no_empty_book(&journal, coverage);
}

/// Calls that lead somewhere, each of the ten among them, one with a long
/// title, and a second intake with a rate.
fn every_call() -> Vec<Call> {
    vec![
        Draft::zs1().intake(),
        transfer("EPEZZS1-201007-A-0-K", 17_549),
        transfer("EPEZZS1-201007-A-0-O", 1_050),
        go_ahead("ZS1"),
        pair("ZS1"),
        transfer("EPEZZS1-20201007-A-0-K", 101),
        pair("ZS1"),
        post("ZS1", 1),
        pay("ZS1", 1),
        withdraw("ZS1", 3),
        mark_undelivered("ZS1", 2),
        give_back("ZS1", Route::Zzr, Money::O),
        give_back("ZS1", Route::Zwr, Money::K),
        close("ZS1"),
        Draft::new("ZS2", &[9_999]).with_tariff(350, 125).intake(),
        pair("ZS2"),
    ]
}

/// Journals of an intake with as many of its numbers as there are from 0 to two
/// too many, and a pairing that tells what the fees are: with twelve numbers all
/// of the profile, with seven no rates, as before there were any.
fn some_numbers() -> Vec<(String, Vec<u8>)> {
    let mut draft = Draft::new("ZS1", &[10_000, 9_999]).with_kind("4");
    draft.profile.rates = [10_000, 1, 2, 3, 4];
    let mut journals = Vec::new();
    for count in 0..=14 {
        let intake = Entry::of(&draft.intake()).with_numbers(count);
        let journal = written(&[intake, Entry::of(&pair("ZS1"))]);
        journals.push((format!("of an intake of {count} numbers"), journal));
    }
    journals
}

/// Journals of one transfer with two texts, whose lengths are at the end of the
/// numbers, alone and together.
fn long_texts() -> Vec<(String, Vec<u8>)> {
    let lengths = [0, 1, 3, 4, 1 << 63, u64::MAX - 40, u64::MAX - 1, u64::MAX];
    let mut journals = Vec::new();
    for first in lengths {
        for second in lengths {
            let mut bytes = 1u64.to_le_bytes().to_vec();
            bytes.extend([1, 1, 2]);
            for number in [5, first, second] {
                bytes.extend(u64::to_le_bytes(number));
            }
            bytes.extend(*b"ZS1Z");
            journals.push((format!("of texts of {first} and {second}"), bytes));
        }
    }
    journals
}

/// A good journal in memory that is too short, in a book that has a shipment,
/// and in bytes that are no book.
fn no_empty_book(journal: &[u8], coverage: &mut Coverage) {
    let mut twin = Twin::empty(LENGTH).unwrap_or_else(|difference| end_with(&difference));
    let empty = twin.lent.bytes().to_vec();
    let entered = twin.call(&Draft::zs1().intake());
    entered.unwrap_or_else(|difference| end_with(&difference));
    let held = twin.lent.bytes();
    let memories = [&empty[..LENGTH - 1], &[], held, &[0xFF; LENGTH]];
    for bytes in memories {
        if let Err(difference) = check_memory(journal, bytes, coverage) {
            let length = bytes.len();
            end_with(&format!("a journal in {length} bytes: {difference}"));
        }
    }
}
