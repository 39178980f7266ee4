//! "One spelling per amount" (document 02, A3): the readings' texts read as
//! amounts and as sums; what 130, 131 and 902 say of them at intake; what keeps
//! its leading zeros; and the one text of each number.

use crate::helpers::*;
use reference::text::{read_amount, read_sum};
use reference::{write_money, write_money_into, Book};

/// The texts that the readings name and their neighbours, with what each reads
/// as an amount and as a sum.
const TEXTS: [(&str, Option<u64>, Option<u64>); 24] = [
    ("0.00", Some(0), Some(0)),
    ("0.01", Some(1), Some(1)),
    ("0.50", Some(50), Some(50)),
    ("0.99", Some(99), Some(99)),
    ("1.00", Some(100), Some(100)),
    ("7.50", Some(750), Some(750)),
    ("10.00", Some(1_000), Some(1_000)),
    ("100.05", Some(10_005), Some(10_005)),
    ("1000000.00", Some(100_000_000), Some(100_000_000)),
    ("9999999.99", Some(999_999_999), Some(999_999_999)),
    ("10000000.00", None, Some(1_000_000_000)),
    ("99999999999.99", None, Some(CAP)),
    ("100000000000.00", None, None),
    ("00.50", None, None),
    ("007.50", None, None),
    ("01.00", None, None),
    ("00.00", None, None),
    ("00.01", None, None),
    ("000.00", None, None),
    ("0000000.00", None, None),
    ("0000001.00", None, None),
    ("0999999.99", None, None),
    ("00000000000.00", None, None),
    ("09999999999.99", None, None),
];

#[test]
fn amounts_and_sums_have_no_leading_zero() {
    for (text, amount, sum) in TEXTS {
        assert_eq!(read_amount(text.as_bytes()), amount, "{text} as an amount");
        assert_eq!(read_sum(text.as_bytes()), sum, "{text} as a sum");
    }
    // However many stand before the digits.
    for digits in ["0", "5", "10", "9999999"] {
        for zeros in 1..=12 {
            let text = format!("{}{digits}.50", "0".repeat(zeros));
            assert_eq!(read_amount(text.as_bytes()), None, "{text}");
            assert_eq!(read_sum(text.as_bytes()), None, "{text}");
        }
    }
}

/// Every text of up to so many of these bytes.
fn texts_of(bytes: &[u8], most: usize) -> Vec<Vec<u8>> {
    let mut all = vec![Vec::new()];
    let mut longest = all.clone();
    for _ in 0..most {
        let longer = longest.iter().flat_map(|text| {
            bytes.iter().map(move |byte| {
                let mut text: Vec<u8> = text.clone();
                text.push(*byte);
                text
            })
        });
        longest = longer.collect();
        all.extend(longest.iter().cloned());
    }
    all
}

#[test]
fn two_accepted_texts_of_equal_value_are_equal_bytes() {
    // "add that two accepted texts of equal value are equal bytes": an amount's
    // and a sum's too, since what is read is what is written of its value.
    let mut read = 0;
    for text in texts_of(b"019.", 8) {
        for value in [read_amount(&text), read_sum(&text)].into_iter().flatten() {
            assert_eq!(write_money(value).as_bytes(), text);
            read += 1;
        }
    }
    // 3 digits, or 2 and then 1 to 4 of 3, and 9 ways to end, for both readers.
    assert_eq!(read, 2 * 9 * (3 + 2 * (3 + 9 + 27 + 81)));
}

#[test]
fn sums_130_and_131() {
    for (sum, expected) in [
        ("175.50", Ok((3, 1))),
        ("0175.50", Err(130)),
        ("00175.50", Err(130)),
        ("00000000175.50", Err(130)),
        ("000000000175.50", Err(130)),
        ("0.00", Err(131)),
        ("00.00", Err(130)),
        ("000.00", Err(130)),
        ("00000000000.00", Err(130)),
        ("000000000000.00", Err(130)),
        ("0.01", Err(132)),
        ("00.01", Err(130)),
    ] {
        assert_eq!(Draft::zs1().header(12, sum).judge(), expected, "{sum}");
    }
}

#[test]
fn amounts_902() {
    // In each of three orders; field 12 is their sum, however they are spelt.
    for (amount, expected) in [
        ("7.50", Ok((3, 0))),
        ("07.50", Err(902)),
        ("007.50", Err(902)),
        ("0000007.50", Err(902)),
        ("00000007.50", Err(902)),
        ("0.01", Ok((3, 0))),
        ("00.01", Err(902)),
        ("0000000.01", Err(902)),
        ("0.00", Err(902)),
        ("00.00", Err(902)),
    ] {
        for order in 0..3 {
            let mut amounts = ["1.00"; 3];
            amounts[order] = amount;
            let draft = Draft::new("ZS1", &amounts);
            assert_eq!(draft.judge(), expected, "{amount} in order {}", order + 1);
        }
    }
}

#[test]
fn a_refused_spelling_leaves_the_book() {
    let mut book = Book::empty();
    let draft = Draft::zs1();
    let spelt = [
        (draft.clone().header(12, "00175.50"), 130),
        (draft.clone().field(3, "0100.00"), 902),
    ];
    for (spelt, number) in spelt {
        assert_eq!(intake(&mut book, &spelt), refused(number));
        assert_eq!(book, Book::empty());
    }
    assert_eq!(intake(&mut book, &draft), accepted(3, 1));
}

#[test]
fn counts_and_record_numbers_keep_their_zeros() {
    let mut draft = Draft::zs1().header(11, "000003");
    for (number, record) in (1..).zip(&mut draft.records) {
        record[1] = format!("{number:06}");
    }
    assert_eq!(draft.judge(), Ok((3, 1)));
    let with_count = |count: &str| draft.clone().header(11, count).judge();
    assert_eq!(with_count("000000"), Err(127));
    assert_eq!(with_count("0000003"), Err(126));
    assert_eq!(draft.field(2, "0000001").judge(), Err(901));
}

#[test]
fn fields_16_to_18_are_not_judged() {
    for position in 16..=18 {
        for text in ["007.50", "00.00", "000"] {
            let draft = Draft::new("ZS1", &["1.00"]).field(position, text);
            assert_eq!(draft.fault(), None, "field {position}: {text}");
        }
    }
}

#[test]
fn the_order_of_the_questions_is_unchanged() {
    let bad_sum = Draft::zs1().header(12, "00175.50");
    let bad_amount = Draft::zs1().field(3, "0100.00");
    // 125, 126 and 127 stand before 130, which stands before all of the records.
    assert_eq!(bad_sum.clone().benefit_date(20_200_906).judge(), Err(125));
    assert_eq!(bad_sum.clone().header(11, "").judge(), Err(126));
    assert_eq!(bad_sum.clone().header(11, "0").judge(), Err(127));
    assert_eq!(bad_sum.clone().field(1, "3").judge(), Err(130));
    assert_eq!(bad_sum.field(3, "0100.00").judge(), Err(130));
    // 131 and 901 stand before 902, which stands before 129 and 132.
    assert_eq!(bad_amount.clone().header(12, "0.00").judge(), Err(131));
    let mut later = bad_amount.clone();
    later.records[2][1] = "4".into();
    assert_eq!(later.judge(), Err(901));
    assert_eq!(bad_amount.clone().header(11, "2").judge(), Err(902));
    assert_eq!(bad_amount.header(12, "175.51").judge(), Err(902));
}

#[test]
fn the_one_text_of_a_number() {
    for (grosze, text) in [
        (0, "0.00"),
        (5, "0.05"),
        (99, "0.99"),
        (100, "1.00"),
        (17_550, "175.50"),
        (999_999_999, "9999999.99"),
        (CAP, "99999999999.99"),
        (CAP + 1, "100000000000.00"),
        (u64::MAX, "184467440737095516.15"),
    ] {
        assert_eq!(write_money(grosze), text);
    }
    for grosze in (0..=1_000).chain([99_999, 100_000, 999_999_999, 1_000_000_000, CAP]) {
        let text = write_money(grosze);
        let amount = (grosze <= 999_999_999).then_some(grosze);
        assert_eq!(read_amount(text.as_bytes()), amount, "{text}");
        assert_eq!(read_sum(text.as_bytes()), Some(grosze), "{text}");
    }
    assert_eq!(read_sum(write_money(CAP + 1).as_bytes()), None);
}

#[test]
fn a_text_is_written_whole_or_not_at_all() {
    for length in 0..=9 {
        let mut output = [b'x'; 9];
        let answer = write_money_into(17_550, &mut output[..length]);
        if length < 6 {
            assert_eq!(answer, Err(30));
            assert_eq!(&output, b"xxxxxxxxx");
        } else {
            assert_eq!(answer, Ok(6));
            assert_eq!(&output, b"175.50xxx");
        }
    }
}
