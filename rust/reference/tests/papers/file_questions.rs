//! Each question of the file list: a good file with one thing broken; and for
//! every two questions, both broken, the earlier number.

use crate::helpers::*;
use reference::{Book, Fee, Money, Profile, Stage, State, Tariff};

/// A book and a file brought to it.
#[derive(Clone)]
struct Scene {
    book: Book,
    draft: Draft,
}

/// A good scene. Its file has identifier ZS1 and three orders.
fn scene() -> Scene {
    Scene {
        book: Book::empty(),
        draft: Draft::zs1(),
    }
}

/// Sets one part of the name's four.
fn name_part(draft: &mut Draft, part: usize, value: &[u8]) {
    let mut parts: Vec<Vec<u8>> = draft
        .name
        .split(|byte| *byte == b'-')
        .map(<[u8]>::to_vec)
        .collect();
    if part < parts.len() {
        parts[part] = value.to_vec();
    }
    draft.name = parts.join(&b'-');
}

/// Sets the first bytes of the name.
fn name_start(draft: &mut Draft, start: &[u8]) {
    draft.name[..start.len()].copy_from_slice(start);
}

/// A book with 32 shipments of one order each.
fn book_of_32() -> Book {
    let mut book = Book::empty();
    for number in 0..32 {
        let draft = Draft::many(&format!("AA{number}"), 1);
        assert_eq!(intake(&mut book, &draft), accepted(1, 0));
    }
    book
}

type Break = fn(&mut Scene);

/// Document 01's list in its order, with document 02's 907 and 906 in it, each
/// with a way to break just it.
fn questions() -> Vec<(u32, Break)> {
    vec![
        (905, |s| s.draft.profile.fields = 18),
        (907, |s| s.draft.profile.rates[4] = 10_001),
        (900, |s| {
            // "an order in each shipment"
            let mut other = zs1_waiting();
            other.shipments[0].name.identifier = b"XX9".to_vec();
            other.shipments[0].rows.clear();
            s.book.shipments.append(&mut other.shipments);
        }),
        (1, |s| s.draft.whole = Some(Vec::new())),
        (34, |s| s.draft.mark = vec![0xEF, 0xBB]),
        (3, |s| s.draft.name.extend(b"-0")),
        (7, |s| name_start(&mut s.draft, b"EPF")),
        (10, |s| name_start(&mut s.draft, b"EPEP")),
        (13, |s| name_part(&mut s.draft, 0, b"EPEZZS")),
        (16, |s| name_part(&mut s.draft, 1, b"200931")),
        (19, |s| name_part(&mut s.draft, 2, b"C")),
        (22, |s| name_part(&mut s.draft, 3, b"5")),
        (4, |s| s.draft.header.push("x".into())),
        (5, |s| s.draft.header[0] = "2".into()),
        (11, |s| s.draft.header[1] = "PP".into()),
        (8, |s| s.draft.header[2] = "EPF".into()),
        (99, |s| s.draft.header[3] = "1.1".into()),
        (14, |s| s.draft.header[4] = "ZS2".into()),
        (17, |s| s.draft.header[7] = "20201008".into()),
        (20, |s| s.draft.header[8] = "B".into()),
        (23, |s| s.draft.header[9] = "1".into()),
        (101, |s| {
            s.book.shipments.truncate(31);
            assert!(matches!(
                s.book.call(&Draft::many("ZS1", 1).intake()),
                reference::Answer::Accepted { .. } | reference::Answer::Refused(900)
            ));
        }),
        (102, |s| s.draft.header[6].clear()),
        (103, |s| s.draft.header[6] = "20201007240000".into()),
        (120, |s| s.draft.header[5].clear()),
        (121, |s| s.draft.header[5] = "ABC12".into()),
        (125, |s| s.draft = s.draft.clone().benefit_date(20_200_906)),
        (126, |s| s.draft.header[10] = "0000003".into()),
        (127, |s| s.draft.header[10] = "0".into()),
        (130, |s| s.draft.header[11] = "175.5".into()),
        (131, |s| s.draft.header[11] = "0.00".into()),
        (901, |s| s.draft.records[1][1] = "3".into()),
        (902, |s| s.draft.records[0][2] = "0.00".into()),
        (129, |s| {
            s.draft.records.truncate(2);
            s.draft.header[11] = "150.00".into();
        }),
        (132, |s| s.draft.header[11] = "175.51".into()),
        (906, |s| s.draft = s.draft.clone().tariff(999_999_999, 1)),
        (903, |s| {
            // 32 shipments beside the one broken in already, if any.
            if s.book.is_sound() {
                s.book = book_of_32();
            }
        }),
        (904, |s| {
            if s.book.is_sound() && s.book.shipments.len() < 32 {
                let draft = Draft::many("BB1", 2_046);
                assert_eq!(intake(&mut s.book, &draft), accepted(2_046, 0));
            }
        }),
    ]
}

#[test]
fn the_good_scene_is_accepted() {
    let mut scene = scene();
    assert_eq!(intake(&mut scene.book, &scene.draft), accepted(3, 1));
}

#[test]
fn each_question_alone() {
    let questions = questions();
    assert_eq!(questions.len(), 38);
    for (number, break_it) in questions {
        let mut scene = scene();
        break_it(&mut scene);
        assert_eq!(
            intake(&mut scene.book, &scene.draft),
            refused(number),
            "question {number}"
        );
    }
}

#[test]
fn of_two_broken_the_earlier_answers() {
    let questions = questions();
    for (place, (number, break_it)) in questions.iter().enumerate() {
        for (later_number, break_later) in &questions[place + 1..] {
            let mut scene = scene();
            break_later(&mut scene);
            break_it(&mut scene);
            assert_eq!(
                intake(&mut scene.book, &scene.draft),
                refused(*number),
                "questions {number} and {later_number}"
            );
        }
    }
}

#[test]
fn the_file_alone_leaves_out_the_books_questions() {
    for (number, break_it) in questions() {
        let mut scene = scene();
        break_it(&mut scene);
        let expected = if [900, 101, 903, 904].contains(&number) {
            Ok((3, 1))
        } else {
            Err(number)
        };
        assert_eq!(scene.draft.judge(), expected, "question {number}");
    }
}

#[test]
fn profile_905() {
    let judged = |profile: Profile| {
        let draft = Draft::zs1();
        reference::judge(&profile, &draft.name, &draft.file())
    };
    for today in [
        0,
        19_991_231,
        21_000_101,
        20_201_032,
        20_210_229,
        202_010_070,
    ] {
        let profile = Profile { today, ..profile() };
        assert_eq!(judged(profile), Err(905), "{today}");
    }
    for kind in 0..5 {
        let mut flat = [0; 5];
        flat[kind] = 999_999_999;
        assert_eq!(judged(Profile { flat, ..profile() }), Ok((3, 1)));
        flat[kind] = 1_000_000_000;
        assert_eq!(judged(Profile { flat, ..profile() }), Err(905));
    }
    for (fields, bad) in [(0, true), (18, true), (33, true), (u64::MAX, true)] {
        assert_eq!(
            judged(Profile {
                fields,
                ..profile()
            }) == Err(905),
            bad
        );
    }
    // The profile is asked before everything, the empty file too.
    let bad = Profile {
        fields: 33,
        ..profile()
    };
    assert_eq!(reference::judge(&bad, b"", b""), Err(905));
}

#[test]
fn record_fields_19_to_32() {
    for fields in 19..=32 {
        let mut draft = Draft::zs1();
        draft.profile.fields = fields;
        for record in &mut draft.records {
            // Fields 20 and on are never judged, so spaces are fine there.
            record.resize(fields as usize, " ".into());
        }
        assert_eq!(draft.judge(), Ok((3, 1)), "{fields}");
        draft.records[2].push(String::new());
        assert_eq!(draft.judge(), Err(901), "{fields} and one more");
        draft.records[2].truncate(fields as usize - 1);
        assert_eq!(draft.judge(), Err(901), "{fields} less one");
    }
}

#[test]
fn names() {
    for (name, expected) in [
        ("", Err(3)),
        ("EPEZZS1-201007-A", Err(3)),
        ("EPEZZS1-201007-A-0-", Err(3)),
        ("---", Err(7)),
        ("EP---", Err(7)),
        ("epeZZS1-201007-A-0", Err(7)),
        ("EP-EZZS1-A-0", Err(7)),
        ("EPE---", Err(10)),
        ("EPEzZS1-201007-A-0", Err(10)),
        ("EPEZ---", Err(13)),
        ("EPEZZS-201007-A-0", Err(13)),
        ("EPEZZ11-201007-A-0", Err(13)),
        ("EPEZ1S1-201007-A-0", Err(13)),
        ("EPEZZS1 -201007-A-0", Err(13)),
        ("EPEZZŚ1-201007-A-0", Err(13)),
        ("EPEZZS1234567890123456-201007-A-0", Err(13)),
        ("EPEZZS1--A-0", Err(16)),
        ("EPEZZS1-20201007-A-0", Err(16)),
        ("EPEZZS1-20100-A-0", Err(16)),
        ("EPEZZS1-2010 7-A-0", Err(16)),
        ("EPEZZS1-201307-A-0", Err(16)),
        ("EPEZZS1-201000-A-0", Err(16)),
        ("EPEZZS1-210229-A-0", Err(16)),
        ("EPEZZS1-201007--0", Err(19)),
        ("EPEZZS1-201007-a-0", Err(19)),
        ("EPEZZS1-201007-AB-0", Err(19)),
        ("EPEZZS1-201007-A-", Err(22)),
        ("EPEZZS1-201007-A-5", Err(22)),
        ("EPEZZS1-201007-A-00", Err(22)),
        ("EPEZZS1-201007-A-0.csv", Err(22)),
        ("EPEZZS1-201007-A-0 ", Err(22)),
        ("EPEZZS1-201007-A-0", Ok((3, 1))),
    ] {
        assert_eq!(Draft::zs1().name(name).judge(), expected, "{name}");
    }
    // Names in form that this header does not carry.
    for (name, expected) in [
        ("EPEZzS1-201007-A-0", Err(14)),
        ("EPEZZS123456789012345-201007-A-0", Err(14)),
        ("EPEZZS1-000229-A-0", Err(17)),
        ("EPEZZS1-201007-B-0", Err(20)),
        ("EPEZZS1-201007-A-4", Err(23)),
    ] {
        assert_eq!(Draft::zs1().name(name).judge(), expected, "{name}");
    }
    // Bytes that are no UTF-8 are bytes like others.
    let mut draft = Draft::zs1();
    draft.name[5] = 0xFF;
    assert_eq!(draft.judge(), Err(13));
}

#[test]
fn identifiers_of_3_and_17() {
    for identifier in ["ZS1", "ZSa", "zsZ", "ZS123456789012345"] {
        let draft = Draft::new(identifier, &["1.00"]);
        assert_eq!(draft.judge(), Ok((1, 0)), "{identifier}");
    }
    for identifier in ["ZS", "ZS1234567890123456", "Z11", "1S1", "ZS_"] {
        let draft = Draft::new(identifier, &["1.00"]);
        assert_eq!(draft.judge(), Err(13), "{identifier}");
    }
}

#[test]
fn marks_and_utf8() {
    let mut draft = Draft::zs1();
    for bytes in [
        b"\xEF".to_vec(),
        b"\xEF\xBB".to_vec(),
        b"1".to_vec(),
        b"\xEF\xBB\xBE1".to_vec(),
        b"\xFF\xFE1".to_vec(),
        // Overlong, surrogate, above U+10FFFF, cut short, lone continuation.
        b"\xEF\xBB\xBF\xC0\x80".to_vec(),
        b"\xEF\xBB\xBF\xC1\xBF".to_vec(),
        b"\xEF\xBB\xBF\xE0\x9F\xBF".to_vec(),
        b"\xEF\xBB\xBF\xED\xA0\x80".to_vec(),
        b"\xEF\xBB\xBF\xED\xBF\xBF".to_vec(),
        b"\xEF\xBB\xBF\xF0\x8F\xBF\xBF".to_vec(),
        b"\xEF\xBB\xBF\xF4\x90\x80\x80".to_vec(),
        b"\xEF\xBB\xBF\xF5\x80\x80\x80".to_vec(),
        b"\xEF\xBB\xBF\xC5".to_vec(),
        b"\xEF\xBB\xBF\xE2\x82".to_vec(),
        b"\xEF\xBB\xBF\xF0\x9F\x98".to_vec(),
        b"\xEF\xBB\xBF\x80".to_vec(),
        b"\xEF\xBB\xBF\xFF".to_vec(),
    ] {
        draft.whole = Some(bytes.clone());
        assert_eq!(draft.judge(), Err(34), "{bytes:?}");
    }
    // Well-formed, but no header.
    for bytes in [
        b"\xEF\xBB\xBF".to_vec(),
        b"\xEF\xBB\xBF\r\n".to_vec(),
        b"\xEF\xBB\xBF\r\n\r\n".to_vec(),
        b"\xEF\xBB\xBF\xC2\x80".to_vec(),
        b"\xEF\xBB\xBF\xE0\xA0\x80".to_vec(),
        b"\xEF\xBB\xBF\xED\x9F\xBF".to_vec(),
        b"\xEF\xBB\xBF\xEE\x80\x80".to_vec(),
        b"\xEF\xBB\xBF\xF0\x90\x80\x80".to_vec(),
        b"\xEF\xBB\xBF\xF4\x8F\xBF\xBF".to_vec(),
    ] {
        draft.whole = Some(bytes.clone());
        assert_eq!(draft.judge(), Err(4), "{bytes:?}");
    }
    // 001 and 034 look at the whole file before the name is asked.
    let draft = Draft::zs1().name("");
    assert_eq!(reference::judge(&profile(), b"", b""), Err(1));
    let mut file = draft.file();
    file.push(0xFF);
    assert_eq!(reference::judge(&profile(), b"", &file), Err(34));
    // A second byte mark is a character of field 1.
    let text = draft.text();
    let draft = Draft::zs1().with_text(&format!("\u{FEFF}{text}"));
    assert_eq!(draft.judge(), Err(5));
}

#[test]
fn lines_and_fields() {
    let good = Draft::zs1();
    let text = good.text();
    let header_end = text.find("\r\n").unwrap();
    let (header, records) = text.split_at(header_end);
    let with = |text: String| good.clone().with_text(&text).judge();

    // "one CR LF after the last line is allowed and adds no line"
    assert_eq!(with(text.clone()), Ok((3, 1)));
    assert_eq!(with(text.trim_end().to_string()), Ok((3, 1)));
    // Another leaves an empty last line.
    assert_eq!(with(format!("{text}\r\n")), Err(901));
    // Stray CR or LF in the header: 004; elsewhere: 901.
    assert_eq!(with(format!("{header}\r{records}")), Err(4));
    assert_eq!(with(format!("{header}\n{records}")), Err(4));
    assert_eq!(with(format!("\n{text}")), Err(4));
    assert_eq!(with(text.replace("\r\n", "\n")), Err(4));
    assert_eq!(with(text.replace("\r\n", "\r")), Err(4));
    assert_eq!(with(format!("{}\r", text.trim_end())), Err(901));
    assert_eq!(with(format!("{}\n", text.trim_end())), Err(901));
    assert_eq!(with(format!("{}\r\r\n", text.trim_end())), Err(901));
    assert_eq!(with(format!("{text}\n")), Err(901));
    assert_eq!(with(format!("{text}\r")), Err(901));
    assert_eq!(with(text.replace("Łucja", "Łu\rcja")), Err(901));
    assert_eq!(with(text.replace("Łucja", "Łu\ncja")), Err(901));
    assert_eq!(with(text.replace("Łucja", "Łu\n\rcja")), Err(901));
    assert_eq!(with(text.replace("Łucja", "Łu\r\ncja")), Err(901));
    // A stray one in a field that the list judges earlier is still 004.
    assert_eq!(with(text.replacen("ZUS", "ZUS\n", 1)), Err(4));
    // No record lines, with and without a CR LF.
    assert_eq!(with(header.to_string()), Err(129));
    assert_eq!(with(format!("{header}\r\n")), Err(129));
    assert_eq!(with(format!("{header}\r\n\r\n")), Err(901));
    // An emptied last record is the dropped CR LF.
    let last = text.trim_end().rfind("\r\n").unwrap();
    assert_eq!(with(text[..last + 2].to_string()), Err(129));
    // Header of 11 fields and a bar: 12 fields, the last empty.
    let bar = header.rfind('|').unwrap();
    assert_eq!(with(format!("{}|{records}", &header[..bar])), Err(130));
    // 12 fields and a bar, or 11 fields.
    assert_eq!(with(format!("{header}|{records}")), Err(4));
    assert_eq!(with(format!("{}{records}", &header[..bar])), Err(4));
    // Controls and other line ends of Unicode are characters.
    for character in ['\0', '\u{85}', '\u{2028}', '\u{FFFE}', '\u{FFFF}', '\u{B}'] {
        let draft = good.clone().field(5, &character.to_string());
        assert_eq!(draft.judge(), Ok((3, 1)), "{character:?}");
    }
}

#[test]
fn header_fields() {
    for (position, value, expected) in [
        (1, "", Err(5)),
        (1, "1 ", Err(5)),
        (1, "01", Err(5)),
        (2, "zus", Err(11)),
        (2, "", Err(11)),
        (3, "epe", Err(8)),
        (3, "", Err(8)),
        (4, "", Err(99)),
        (4, "1", Err(99)),
        (4, "1.00", Err(99)),
        (5, "zs1", Err(14)),
        (5, "", Err(14)),
        (8, "201007", Err(17)),
        (8, "", Err(17)),
        (9, "a", Err(20)),
        (9, "", Err(20)),
        (10, "00", Err(23)),
        (10, "", Err(23)),
        (7, "", Err(102)),
        (7, " ", Err(103)),
        (7, "20201007", Err(103)),
        (7, "2020100712000", Err(103)),
        (7, "202010071200000", Err(103)),
        (7, "2020100712000x", Err(103)),
        (7, "20201007235959", Ok((3, 1))),
        (7, "20201007240000", Err(103)),
        (7, "20201007236000", Err(103)),
        (7, "20201007235960", Err(103)),
        (7, "20200931120000", Err(103)),
        (7, "20201007000000", Ok((3, 1))),
        (6, "", Err(120)),
        (6, " ", Err(121)),
        (6, "ABCDE", Err(121)),
        (6, "ABCDEFG", Err(121)),
        (6, "ABC-12", Err(121)),
        (6, "ŁŁŁ", Err(121)),
        (6, "ŁBC123", Err(121)),
        (6, "zZ09aA", Ok((3, 1))),
        (11, "", Err(126)),
        (11, "+3", Err(126)),
        (11, " 3", Err(126)),
        (11, "0000003", Err(126)),
        (11, "000003", Ok((3, 1))),
        (11, "000000", Err(127)),
        (11, "0", Err(127)),
        (11, "2", Err(129)),
        (11, "4", Err(129)),
        (11, "999999", Err(129)),
        (12, "", Err(130)),
        (12, "175.5", Err(130)),
        (12, "175.500", Err(130)),
        (12, "175,50", Err(130)),
        (12, "17550", Err(130)),
        (12, ".50", Err(130)),
        (12, "-175.50", Err(130)),
        (12, "175.50 ", Err(130)),
        (12, "1.75.50", Err(130)),
        (12, "000000000175.50", Err(130)),
        (12, "00000000175.50", Err(130)),
        (12, "0.00", Err(131)),
        (12, "00000000000.00", Err(130)),
        (12, "0.01", Err(132)),
        (12, "175.49", Err(132)),
        (12, "99999999999.99", Err(132)),
        (12, "100000000000.00", Err(130)),
    ] {
        let draft = Draft::zs1().header(position, value);
        assert_eq!(draft.judge(), expected, "field {position}: {value:?}");
    }
}

#[test]
fn records_901_and_902() {
    for (position, value, expected) in [
        (1, "1", Err(901)),
        (1, "", Err(901)),
        (1, "02", Err(901)),
        (2, "", Err(901)),
        (2, "0", Err(901)),
        (2, "2", Err(901)),
        (2, "01", Ok((3, 1))),
        (2, "000001", Ok((3, 1))),
        (2, "0000001", Err(901)),
        (2, "+1", Err(901)),
        (2, " 1", Err(901)),
        (3, "", Err(902)),
        (3, "0.00", Err(902)),
        (3, "0000000.00", Err(902)),
        (3, "100", Err(902)),
        (3, "100.0", Err(902)),
        (3, "100.000", Err(902)),
        (3, "100,00", Err(902)),
        (3, ".00", Err(902)),
        (3, "-100.00", Err(902)),
        (3, "100.00 ", Err(902)),
        (3, "00000100.00", Err(902)),
        (3, "0000100.00", Err(902)),
        (3, "100.01", Err(132)),
    ] {
        let draft = Draft::zs1().field(position, value);
        assert_eq!(draft.judge(), expected, "field {position}: {value:?}");
    }
    // Four passes: a bad amount on line 1, a bad structure on line 3.
    let mut draft = Draft::zs1().field(3, "0.00");
    draft.records[2][0] = "3".into();
    assert_eq!(draft.judge(), Err(901));
    // Lines past the count are judged too.
    let mut draft = Draft::zs1();
    draft.header[10] = "2".into();
    draft.header[11] = "150.00".into();
    assert_eq!(draft.judge(), Err(129));
    draft.records[2][2] = "x".into();
    assert_eq!(draft.judge(), Err(902));
    draft.records[2][1] = "x".into();
    assert_eq!(draft.judge(), Err(901));
}

#[test]
fn the_largest_amount_enters() {
    let mut book = Book::empty();
    let draft = Draft::new("ZS1", &["9999999.99", "0.01"]);
    assert_eq!(draft.header[11], "10000000.00");
    assert_eq!(intake(&mut book, &draft), accepted(2, 0));
    let shipment = book.shipment(b"ZS1").unwrap();
    assert_eq!(shipment.rows[0].amount, 999_999_999);
    assert_eq!(shipment.rows[1].amount, 1);
    assert_eq!(shipment.need(Money::K), 1_000_000_000);
    let draft = Draft::new("ZS2", &["10000000.00"]);
    assert_eq!(draft.judge(), Err(902));
}

#[test]
fn faults() {
    let long = |length: usize| "ł".repeat(length);
    let spaces = "   ".to_string();
    for (position, value, expected) in [
        // 1 surname
        (4, String::new(), Some(1)),
        (4, long(1), None),
        (4, long(31), None),
        (4, "😀".repeat(31), None),
        (4, long(32), Some(1)),
        // Two code points for one letter count two.
        (4, "e\u{301}".repeat(15), None),
        (4, "e\u{301}".repeat(16), Some(1)),
        (4, " ".into(), Some(10)),
        // 2 first name
        (5, String::new(), Some(2)),
        (5, long(22), None),
        (5, long(23), Some(2)),
        // 3 post town
        (6, String::new(), Some(3)),
        (6, long(35), None),
        (6, long(36), Some(3)),
        // 4 postcode
        (7, String::new(), Some(4)),
        (7, "90001".into(), Some(4)),
        (7, "90-0011".into(), Some(4)),
        (7, "900-01".into(), Some(4)),
        (7, "9O-001".into(), Some(4)),
        (7, "90-00l".into(), Some(4)),
        (7, "90 001".into(), Some(4)),
        (7, " 90-001".into(), Some(4)),
        (7, "00-000".into(), None),
        // 5 town, street
        (8, long(35), None),
        (8, long(36), Some(5)),
        (8, String::new(), None),
        (9, long(35), None),
        (9, long(36), Some(5)),
        (9, String::new(), None),
        // 6 house number
        (10, String::new(), Some(6)),
        (10, long(11), None),
        (10, long(12), Some(6)),
        // 7 extra
        (12, "PR".into(), None),
        (12, "pr".into(), Some(7)),
        (12, "PR1".into(), Some(7)),
        (12, "SP_".into(), Some(7)),
        (12, "SP_1".into(), None),
        (12, "SP_00000".into(), None),
        (12, "SP_123456".into(), Some(7)),
        (12, "SP-1".into(), Some(7)),
        (12, "PP_".into(), Some(7)),
        (12, "PP_9".into(), None),
        (12, "PP_99999".into(), None),
        (12, "PP_999999".into(), Some(7)),
        (12, "pp_9".into(), Some(7)),
        (12, " ".into(), Some(7)),
        (12, "PR ".into(), Some(7)),
        // 8 benefit identifier
        (14, String::new(), Some(8)),
        (14, long(20), None),
        (14, long(21), Some(8)),
        // 9 period
        (15, String::new(), Some(9)),
        (15, "#".into(), None),
        (15, long(35), None),
        (15, long(36), Some(9)),
        // 10 spaces, fields 4 to 19
        (4, " a".into(), Some(10)),
        (4, "a ".into(), Some(10)),
        (4, "a a".into(), None),
        (11, " ".into(), Some(10)),
        (13, "a ".into(), Some(10)),
        (16, " 1".into(), Some(10)),
        (17, " 1".into(), Some(10)),
        (18, "1 ".into(), Some(10)),
        (19, spaces.clone(), Some(10)),
        (20, spaces.clone(), None),
        (21, spaces, None),
        // Other white space is no space.
        (4, "\ta\u{A0}".into(), None),
        // Nothing else is judged.
        (11, long(500), None),
        (13, long(500), None),
        (16, "x".into(), None),
        (19, long(500), None),
        (20, long(500), None),
        (21, String::new(), None),
    ] {
        let draft = Draft::new("ZS1", &["1.00"]).field(position, &value);
        assert_eq!(draft.fault(), expected, "field {position}: {value:?}");
    }
}

#[test]
fn faults_of_the_address_together() {
    let address = |town: &str, street: &str, house: &str, extra: &str| {
        Draft::new("ZS1", &["1.00"])
            .field(8, town)
            .field(9, street)
            .field(10, house)
            .field(12, extra)
            .fault()
    };
    assert_eq!(address("", "", "1", ""), Some(5));
    assert_eq!(address("", "", "", ""), Some(5));
    assert_eq!(address("", "", "", "PR"), None);
    assert_eq!(address("", "", "", "SP_5"), None);
    assert_eq!(address("", "", "", "x"), Some(7));
    assert_eq!(address("", "", "1", "PR"), None);
    assert_eq!(address("a", "", "", "PR"), None);
    assert_eq!(address("a", "", "", ""), Some(6));
    assert_eq!(address("", "a", "1", ""), None);
    assert_eq!(address(&"a".repeat(36), "", "1", "PR"), Some(5));
    assert_eq!(address("", &"a".repeat(36), "1", "PR"), Some(5));
    assert_eq!(address("", "", "123456789012", "PR"), Some(6));
    assert_eq!(address(" ", "", "1", ""), Some(10));
}

#[test]
fn the_first_fault_counts() {
    // Break fields from the last fault to the first: each takes over.
    let mut draft = Draft::new("ZS1", &["1.00"]);
    assert_eq!(draft.fault(), None);
    for (position, value, fault) in [
        (19, " ", 10),
        (15, "", 9),
        (14, "", 8),
        (12, "x", 7),
        (10, "123456789012", 6),
        (8, "123456789012345678901234567890123456", 5),
        (7, "", 4),
        (6, "", 3),
        (5, "", 2),
        (4, "", 1),
    ] {
        draft = draft.field(position, value);
        assert_eq!(draft.fault(), Some(fault));
    }
}

#[test]
fn intake_101_is_by_identifier() {
    let mut book = zs1_waiting();
    // Another date, kind and payment, the same identifier.
    let draft = Draft::new("ZS1", &["1.00"])
        .benefit_date(20_201_008)
        .name("EPEZZS1-201008-B-3")
        .header(9, "B")
        .header(10, "3");
    assert_eq!(draft.judge(), Ok((1, 0)));
    assert_eq!(intake(&mut book, &draft), refused(101));
    // 101 stands before 102 and behind 023.
    assert_eq!(
        intake(&mut book, &draft.clone().header(7, "")),
        refused(101)
    );
    assert_eq!(intake(&mut book, &draft.header(10, "2")), refused(23));
    // Case counts.
    assert_eq!(
        intake(&mut book, &Draft::new("zS1", &["1.00"])),
        accepted(1, 0)
    );
    // A Closed shipment's identifier is known.
    close(&mut book, "ZS1");
    assert_eq!(intake(&mut book, &Draft::zs1()), refused(101));
}

#[test]
fn intake_903_and_904() {
    // 31 shipments: one more fits, then none.
    let mut book = book_of_32();
    assert_eq!(intake(&mut book, &Draft::zs1()), refused(903));
    book.shipments.pop();
    assert_eq!(intake(&mut book, &Draft::zs1()), accepted(3, 1));
    assert_eq!(intake(&mut book, &Draft::many("ZS2", 1)), refused(903));
    // 2,048 rows: exactly full, then none.
    let mut book = Book::empty();
    assert_eq!(intake(&mut book, &Draft::many("AA1", 2_049)), refused(904));
    assert_eq!(
        intake(&mut book, &Draft::many("AA1", 2_045)),
        accepted(2_045, 0)
    );
    assert_eq!(intake(&mut book, &Draft::many("AA2", 4)), refused(904));
    assert_eq!(intake(&mut book, &Draft::zs1()), accepted(3, 1));
    assert_eq!(intake(&mut book, &Draft::many("AA3", 1)), refused(904));
    assert_eq!(book.row_count(), 2_048);
    // Both: 903 first.
    let mut book = book_of_32();
    book.shipments.pop();
    intake(&mut book, &Draft::many("ZZ1", 2_017));
    assert_eq!((book.shipments.len(), book.row_count()), (32, 2_048));
    assert_eq!(intake(&mut book, &Draft::many("ZZ2", 1)), refused(903));
}

#[test]
fn intake_adds_the_files_shipment() {
    let mut book = zs1_waiting();
    let draft = Draft::new("ET77", &["1.00", "2.00"])
        .benefit_date(20_201_006)
        .name("EPEZET77-201006-B-3")
        .header(9, "B")
        .header(10, "3")
        .field(5, "");
    assert_eq!(intake(&mut book, &draft), accepted(2, 1));
    assert_eq!(book.shipments.len(), 2);
    let shipment = &book.shipments[1];
    assert_eq!(shipment.name.identifier, b"ET77");
    assert_eq!(shipment.name.date, 20_201_006);
    assert_eq!(shipment.name.payment, b'B');
    assert_eq!(shipment.name.kind, 3);
    let (flat, rate) = (353, 75);
    assert_eq!(shipment.tariff, Tariff { flat, rate });
    assert_eq!(shipment.stage, Stage::Waiting);
    assert!(!shipment.go_ahead);
    for money in [Money::K, Money::O] {
        assert_eq!(shipment.accepted(money), 0);
        assert_eq!(shipment.returned(money), 0);
        assert_eq!(shipment.held(money), 0);
        assert_eq!(shipment.free(money), 0);
    }
    assert!(matches!(
        shipment.rows[0].state,
        State::Faulty { fault: 2, .. }
    ));
    assert_eq!(shipment.rows[1].state, State::Open);
    assert_eq!(shipment.rows[1].amount, 200);
    // 0.75 and 1.50 grosze beside the flat part.
    let fees = [(353, 7_500), (354, 5_000)];
    for (row, (fee, remainder)) in shipment.rows.iter().zip(fees) {
        assert_eq!(row.fee, Fee { fee, remainder });
    }
}
