//! Money written as text (document 02, A3): numbers up to 1,000, about every
//! power of ten and drawn at random, into outputs of every length; and what was
//! written read back.

use crate::coverage::Coverage;
use crate::lent::number_in_table;
use crate::numbers::Numbers;
use crate::output::{self, Written};
use crate::telling::end_with;
use buntingraft::{write_money, write_money_into, Amount, Call, Fee, MOST_MONEY_BYTES};
use reference::text::{read_amount, read_sum};
use reference::{MOST_AMOUNT, MOST_SUM};

/// Numbers of grosze, each with its text.
const WORKED: [(u64, &str); 15] = [
    (0, "0.00"),
    (1, "0.01"),
    (5, "0.05"),
    (10, "0.10"),
    (99, "0.99"),
    (100, "1.00"),
    (750, "7.50"),
    (1_050, "10.50"),
    (17_550, "175.50"),
    (100_005, "1000.05"),
    (999_999_999, "9999999.99"),
    (9_999_999_999_999, "99999999999.99"),
    (10_000_000_000_000, "100000000000.00"),
    (10_000_000_000_000_000_000, "100000000000000000.00"),
    (u64::MAX, "184467440737095516.15"),
];

/// Writes every such number.
pub fn check(coverage: &mut Coverage) {
    for (grosze, text) in WORKED {
        assert_eq!(written(grosze, text.len(), coverage), Ok(text.into()));
    }
    for grosze in numbers() {
        let text = reference::write_money(grosze);
        every_length(grosze, &text, coverage);
        reads_back(grosze, &text);
        is_shown(grosze, &text);
    }
}

/// The numbers: up to 1,000, about every power of ten, the largest, and 10,000 of
/// any size drawn at random.
fn numbers() -> Vec<u64> {
    let mut all: Vec<u64> = (0..=1_000).collect();
    for power in (0..=19).map(|digits| 10u64.pow(digits)) {
        all.extend([power - 1, power, power + 1]);
    }
    all.extend([u64::MAX - 1, u64::MAX]);
    let mut numbers = Numbers::of(0, 0);
    all.extend((0..10_000).map(|_| numbers.any() >> numbers.below(64)));
    all
}

/// Writes a number into an output of so many bytes, by the archive and by the
/// reference, and gives what both answer.
fn written(grosze: u64, length: usize, coverage: &mut Coverage) -> Written {
    let archive = |output: &mut [u8]| match write_money_into(grosze, output) {
        Ok(length) => Ok(Ok(length)),
        Err(refusal) => number_in_table(Call::WriteMoney, refusal).map(Err),
    };
    let reference = |output: &mut [u8]| reference::write_money_into(grosze, output);
    match output::write(length, archive, reference) {
        Ok(written) => {
            coverage.note_written(Call::WriteMoney, &written);
            written
        }
        Err(difference) => end_with(&format!(
            "{} of {grosze}, in {length} bytes -> ?\n{difference}",
            Call::WriteMoney
        )),
    }
}

/// Writes a number into outputs of every length up to two bytes more than the
/// longest text: 30 where they are too short.
fn every_length(grosze: u64, text: &str, coverage: &mut Coverage) {
    for length in 0..=MOST_MONEY_BYTES + 2 {
        let expected = if length < text.len() {
            Err(30)
        } else {
            Ok(text.into())
        };
        let written = written(grosze, length, coverage);
        assert_eq!(written, expected, "{grosze} in {length} bytes");
    }
}

/// Does the text read as its number, where that is an amount or a sum?
fn reads_back(grosze: u64, text: &str) {
    let amount = (grosze <= MOST_AMOUNT).then_some(grosze);
    let sum = (grosze <= MOST_SUM).then_some(grosze);
    assert_eq!(read_amount(text.as_bytes()), amount, "{text}");
    assert_eq!(read_sum(text.as_bytes()), sum, "{text}");
}

/// Do the bindings give and show it so, in columns too?
fn is_shown(grosze: u64, text: &str) {
    assert_eq!(write_money(grosze), text);
    assert_eq!(Amount(grosze).to_string(), text);
    assert_eq!(Fee(grosze).to_string(), text);
    assert_eq!(format!("{:>24}", Amount(grosze)), format!("{text:>24}"));
    assert_eq!(format!("{:<24}", Fee(grosze)), format!("{text:<24}"));
}
