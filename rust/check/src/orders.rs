//! Random order files: good ones with orders of every fault, and ones that some
//! question refuses.

use crate::breaks::BREAKS;
use crate::draft::Draft;
use crate::numbers::Numbers;
use reference::Call;

/// Flat parts and rates by benefit kind: without a rate; with one, with which
/// some fees are 0 where the flat part is; and such that the largest amount's fee
/// is the largest, or a grosz more.
const TARIFFS: [([u64; 5], [u64; 5]); 12] = [
    ([350; 5], [0; 5]),
    ([350; 5], [0; 5]),
    ([350, 0, 1, 999_999_999, 7], [0; 5]),
    ([0; 5], [0; 5]),
    ([999_999_999; 5], [0; 5]),
    ([350; 5], [125; 5]),
    ([350, 0, 1, 2, 7], [9_999, 10_000, 1, 3_333, 5_000]),
    ([0; 5], [1; 5]),
    ([0; 5], [1, 2, 9_999, 10_000, 4]),
    ([0; 5], [1; 5]),
    ([999_900_000; 5], [1; 5]),
    ([999_900_001; 5], [1; 5]),
];

const AMOUNTS: [u64; 6] = [1, 99, 2_550, 5_000, 10_000, 999_999_999];

/// Texts that some field of a file takes and others do not, parted as in a
/// file.
const TEXTS: &str = concat!(
    "| |x| x|x |0|1|2|3|000001|0.00|0.01|00.00|007.50|175.50|1.5|PR|SP_1|PP_99999|",
    "SP_123456|90-001|900-01|ZUS|A|20201007|20201007120000",
);

/// Bytes that part, end or spoil something.
const BYTES: &[u8] = b"|\r\n -._0129AZz\0\xC5\x82\xEF\xFF";

/// A text for a field: one of the usual, or one that is about as long as a
/// field may be.
fn some_text(numbers: &mut Numbers) -> String {
    if numbers.one_in(2) {
        let texts: Vec<&str> = TEXTS.split('|').collect();
        return numbers.pick(&texts).to_string();
    }
    let letter = numbers.pick(&["a", "ł", "€", "😀"]);
    letter.repeat(numbers.pick(&[1, 11, 12, 20, 21, 22, 23, 31, 32, 35, 36]))
}

/// A good file: 1 to `most` orders, a third of them with a field that may be a
/// fault. One tariff in twelve has a fee above the cap, if the amounts have it.
pub fn good_draft(identifier: &str, most: usize, numbers: &mut Numbers) -> Draft {
    let count = 1 + numbers.below(most);
    let amounts: Vec<u64> = (0..count).map(|_| some_amount(numbers)).collect();
    let mut draft = Draft::new(identifier, &amounts)
        .with_benefit_date(numbers.pick(&[20_200_907, 20_201_007, 20_201_106]))
        .with_header(
            7,
            numbers.pick(&["20200808000000", "20201007120000", "20201017235959"]),
        )
        .with_payment(numbers.pick(&["A", "B"]))
        .with_kind(numbers.pick(&["0", "1", "2", "3", "4"]))
        .with_fields(numbers.pick(&[19, 19, 21, 32]));
    (draft.profile.flat, draft.profile.rates) = numbers.pick(&TARIFFS);
    draft.end = numbers.pick(&["", "\r\n"]);
    for order in 1..=count {
        if numbers.one_in(3) {
            let field = 4 + numbers.below(16);
            draft = draft.with_field(order, field, &some_text(numbers));
        }
    }
    draft
}

/// A record of 19 to 32 fields, some of them any text, the extra field more often one
/// of its own.
pub fn some_record(numbers: &mut Numbers) -> Vec<String> {
    let mut draft = Draft::new("ZS1", &[1]).with_fields(19 + numbers.below(14));
    if numbers.one_in(2) {
        let extra = numbers.pick(&["", "PR", "SP_12", "PP_", "x", " PR", "PR "]);
        draft = draft.with_field(1, 12, extra);
    }
    for field in [8, 9, 10] {
        if numbers.one_in(3) {
            draft = draft.with_field(1, field, "");
        }
    }
    for _ in 0..numbers.below(3) {
        let field = 4 + numbers.below(16);
        draft = draft.with_field(1, field, &some_text(numbers));
    }
    draft.records.remove(0)
}

/// An order's amount.
fn some_amount(numbers: &mut Numbers) -> u64 {
    if numbers.one_in(2) {
        numbers.pick(&AMOUNTS)
    } else {
        1 + numbers.any() % 100_000
    }
}

/// Days and times just outside the windows around 7 October 2020, and far off.
const DAYS: [u64; 4] = [20_200_906, 20_201_107, 20_000_229, 20_991_231];
const TIMES: [&str; 4] = [
    "20200807235959",
    "20201018000000",
    "20201007240000",
    "20210229120000",
];

/// The intake of a file that is no longer quite as it should be.
pub fn spoilt_intake(mut draft: Draft, numbers: &mut Numbers) -> Call {
    for _ in 0..1 + numbers.below(2) {
        draft = spoilt(draft, numbers);
    }
    let (mut name, mut file) = (draft.name(), draft.file());
    if numbers.one_in(3) {
        spoil_byte(&mut file, numbers);
    }
    if numbers.one_in(6) {
        spoil_byte(&mut name, numbers);
    }
    draft.intake_as(name, file)
}

/// The file with one of its parts spoilt.
fn spoilt(mut draft: Draft, numbers: &mut Numbers) -> Draft {
    match numbers.below(10) {
        0 => draft.with_benefit_date(numbers.pick(&DAYS)),
        1 => draft.with_header(7, numbers.pick(&TIMES)),
        2 | 3 => draft.with_header(1 + numbers.below(12), &some_text(numbers)),
        4 | 5 => {
            let order = 1 + numbers.below(draft.records.len());
            draft.with_field(order, 1 + numbers.below(3), &some_text(numbers))
        }
        6 | 7 => with_zeros(draft, numbers),
        _ => {
            let (_, break_it) = numbers.pick(BREAKS);
            break_it(&mut draft);
            draft
        }
    }
}

/// The file with one to seven zeros before its sum or an order's amount, which
/// then are none, or before its count or a record's number, which keep them up
/// to six digits.
fn with_zeros(mut draft: Draft, numbers: &mut Numbers) -> Draft {
    let place = numbers.below(draft.records.len());
    let text = match numbers.below(4) {
        0 => &mut draft.header[11],
        1 => &mut draft.records[place][2],
        2 => &mut draft.header[10],
        _ => &mut draft.records[place][1],
    };
    text.insert_str(0, &"0".repeat(1 + numbers.below(7)));
    draft
}

/// Changes, takes out or puts in one byte.
pub fn spoil_byte(bytes: &mut Vec<u8>, numbers: &mut Numbers) {
    let place = numbers.below(bytes.len() + 1);
    let byte = if numbers.one_in(4) {
        numbers.any() as u8
    } else {
        numbers.pick(BYTES)
    };
    match numbers.below(3) {
        0 if place < bytes.len() => bytes[place] = byte,
        1 if place < bytes.len() => drop(bytes.remove(place)),
        _ => bytes.insert(place, byte),
    }
}
