//! Dates, windows, texts of money and identifiers at their edges.

use crate::helpers::*;
use reference::calendar::{day_number, is_real_date};
use reference::text::{is_identifier, read_amount, read_sum};
use reference::{read_name, read_title, Book, Money, Profile, Tariff};

#[test]
fn real_dates() {
    for date in [
        20_000_101, 20_000_229, 20_040_229, 20_960_229, 20_991_231, 20_210_228, 20_210_430,
    ] {
        assert!(is_real_date(date), "{date}");
    }
    for date in [
        0,
        19_991_231,
        21_000_101,
        20_210_229,
        20_990_229,
        20_210_431,
        20_211_301,
        20_210_001,
        20_210_100,
        20_210_132,
        202_012_310,
        u64::MAX,
    ] {
        assert!(!is_real_date(date), "{date}");
    }
}

#[test]
fn day_numbers_count_every_day() {
    let mut expected = 0;
    for date in 20_000_101..=20_991_231 {
        if is_real_date(date) {
            assert_eq!(day_number(date), expected, "{date}");
            expected += 1;
        }
    }
    // 100 years, 25 of them leap years (2000 is one).
    assert_eq!(expected, 36_525);
}

#[test]
fn windows_across_leap_days_and_years() {
    for (today, created, expected) in [
        // 60 days before 1 March: 1 January in a leap year, else 31 December.
        (20_200_301, "20200101", Ok((3, 1))),
        (20_200_301, "20191231", Err(103)),
        (20_210_301, "20201231", Ok((3, 1))),
        (20_210_301, "20201230", Err(103)),
        // 10 days after 25 December and after 20 February.
        (20_201_225, "20210104", Ok((3, 1))),
        (20_201_225, "20210105", Err(103)),
        (20_200_220, "20200301", Ok((3, 1))),
        (20_200_220, "20200302", Err(103)),
        // The ends of the years 2000 to 2099.
        (20_000_101, "20000101", Ok((3, 1))),
        (20_000_101, "19991231", Err(103)),
        (20_991_231, "20991231", Ok((3, 1))),
        (20_991_231, "21000101", Err(103)),
        (20_000_301, "20000101", Ok((3, 1))),
    ] {
        let draft = Draft::zs1()
            .today(today)
            .benefit_date(today)
            .header(7, &format!("{created}120000"));
        assert_eq!(draft.judge(), expected, "today {today}, created {created}");
    }
    for (today, benefit, expected) in [
        (20_200_315, 20_200_214, Ok((3, 1))),
        (20_200_315, 20_200_213, Err(125)),
        (20_210_315, 20_210_213, Ok((3, 1))),
        (20_210_315, 20_210_212, Err(125)),
        (20_201_215, 20_210_114, Ok((3, 1))),
        (20_201_215, 20_210_115, Err(125)),
        (20_000_101, 20_000_131, Ok((3, 1))),
        (20_000_101, 20_000_201, Err(125)),
        (20_991_231, 20_991_201, Ok((3, 1))),
        (20_991_231, 20_991_130, Err(125)),
        (20_991_231, 20_000_101, Err(125)),
    ] {
        let draft = Draft::zs1()
            .today(today)
            .benefit_date(benefit)
            .header(7, &format!("{today}120000"));
        assert_eq!(draft.judge(), expected, "today {today}, benefit {benefit}");
    }
}

#[test]
fn texts_of_money() {
    assert_eq!(read_amount(b"0.00"), Some(0));
    assert_eq!(read_amount(b"0000000.00"), None);
    assert_eq!(read_amount(b"9999999.99"), Some(999_999_999));
    assert_eq!(read_amount(b"10000000.00"), None);
    assert_eq!(read_sum(b"10000000.00"), Some(1_000_000_000));
    assert_eq!(read_sum(b"0.00"), Some(0));
    assert_eq!(read_sum(b"99999999999.99"), Some(CAP));
    assert_eq!(read_sum(b"100000000000.00"), None);
    for text in [
        "",
        ".",
        "0",
        "0.",
        ".00",
        "0.0",
        "0.000",
        "1,00",
        "1.0a",
        "a.00",
        "+1.00",
        "-1.00",
        " 1.00",
        "1.00 ",
        "1.00.00",
        "1..00",
        "1.\u{0661}0",
        "\u{FF11}.00",
    ] {
        assert_eq!(read_amount(text.as_bytes()), None, "{text}");
        assert_eq!(read_sum(text.as_bytes()), None, "{text}");
    }
}

#[test]
fn identifiers() {
    for identifier in ["ZS1", "AZz", "azZ09", "ZS123456789012345"] {
        assert!(is_identifier(identifier.as_bytes()), "{identifier}");
    }
    for identifier in [
        "",
        "Z",
        "ZS",
        "Z11",
        "1S1",
        "ZS@",
        "ZS[",
        "ZS`",
        "ZS{",
        "ZS/",
        "ZS:",
        "@S1",
        "[S1",
        "ZS\0",
        "ZSŁ",
        "ZS1234567890123456",
    ] {
        assert!(!is_identifier(identifier.as_bytes()), "{identifier}");
    }
}

#[test]
fn names_and_titles_of_source_document_003() {
    let name = read_name(b"EPEZZS123456789012345-110131-A-0").unwrap();
    assert_eq!(name.identifier, b"ZS123456789012345");
    assert_eq!((name.date, name.payment, name.kind), (20_110_131, b'A', 0));
    let name = read_name(b"EPEZZS1234567890-110317-A-0").unwrap();
    assert_eq!(
        read_title(b"EPEZZS1234567890-110317-A-0-K"),
        Ok((name.clone(), Money::K))
    );
    assert_eq!(
        read_title(b"EPEZZS1234567890-110317-A-0-O"),
        Ok((name.clone(), Money::O))
    );
    // The sample of section 3.5.1, which document 02 lets in; 5.1.3.1 has six
    // digits in a name, and still decides there.
    assert_eq!(
        read_title(b"EPEZZS1234567890-20110317-A-0-K"),
        Ok((name, Money::K))
    );
    assert_eq!(read_name(b"EPEZZS1234567890-20110317-A-0"), Err(16));
}

#[test]
fn long_dates_in_titles() {
    for (six, eight) in [
        ("201007", "20201007"),
        ("000229", "20000229"),
        ("000101", "20000101"),
        ("991231", "20991231"),
        ("200101", "20200101"),
    ] {
        for ending in ["A-0-K", "B-4-O"] {
            let [short, long] = [six, eight].map(|date| format!("EPEZZS1-{date}-{ending}"));
            let read = read_title(short.as_bytes());
            assert!(read.is_ok(), "{short}");
            assert_eq!(read_title(long.as_bytes()), read, "{long}");
        }
    }
}

#[test]
fn the_largest_profile_and_the_largest_needs() {
    let mut book = Book::empty();
    let mut draft = Draft::new("ZS1", &vec!["9999999.99"; 2_048]);
    draft.profile = Profile {
        today: 20_201_007,
        flat: [999_999_999; 5],
        fields: 21,
        rates: [0; 5],
    };
    assert_eq!(intake(&mut book, &draft), accepted(2_048, 0));
    let shipment = &book.shipments[0];
    assert_eq!(shipment.need(Money::K), 2_048 * 999_999_999);
    assert_eq!(shipment.need(Money::O), 2_048 * 999_999_999);
    transfer(&mut book, "EPEZZS1-201007-A-0-K", CAP);
    transfer(&mut book, "EPEZZS1-201007-A-0-O", CAP);
    assert_eq!(pair(&mut book, "ZS1"), reference::Answer::Paired);
    let free = CAP - 2_048 * 999_999_999;
    assert_eq!(book.shipments[0].free(Money::K), free);
    assert_eq!(give_back(&mut book, "ZS1", ZWR, O), returned(free, 0));
}

#[test]
fn the_tariff_is_fixed_at_intake() {
    let mut book = Book::empty();
    for (index, identifier) in ["AA1", "AA2", "AA3", "AA4", "AA5"].iter().enumerate() {
        let draft = Draft::new(identifier, &["1.00"])
            .name(&format!("EPEZ{identifier}-201007-A-{index}"))
            .header(10, &index.to_string());
        assert_eq!(intake(&mut book, &draft), accepted(1, 0));
        let (flat, rate) = (350 + index as u64, 25 * index as u64);
        assert_eq!(book.shipments[index].tariff, Tariff { flat, rate });
    }
    intake(&mut book, &Draft::new("AA6", &["1.00"]).tariff(9, 10_000));
    assert_eq!(book.shipments[0].tariff.flat, 350);
    assert_eq!(book.shipments[5].tariff.flat, 9);
    assert_eq!(book.shipments[5].tariff.rate, 10_000);
}
