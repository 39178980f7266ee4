//! "Report files RKF and OPE" (document 02, A2): the readings' worked files byte
//! by byte, their open places, each 31, and 30 at one byte short.

use crate::helpers::*;
use reference::{rkf, rkf_into, Answer, Book, State, Waits};

const OWN_RKF: &[u8] = b"PP0000000001";
const OWN_OPE: &[u8] = b"PP0000000003";
const CREATED_RKF: u64 = 20_201_007_130_000;
const CREATED_OPE: u64 = 20_201_007_131_500;

/// The longest identifier.
const LONGEST: &[u8] = b"PPabcdefgh0123456";

/// A table with another code for each fault: 308 for 1 to 317 for 10.
const CODES: [u64; 10] = [308, 309, 310, 311, 312, 313, 314, 315, 316, 317];

/// Texts that are no identifiers: of 0, 1, 2 and 18 bytes, without two letters
/// in front, and with a byte that is neither letter nor digit.
const NO_IDENTIFIERS: [&[u8]; 12] = [
    b"",
    b"P",
    b"PP",
    b"PPabcdefgh01234567",
    b"P11",
    b"1P1",
    b"PP_",
    b"PP1 ",
    b" PP1",
    b"PP|1",
    b"PP1\0",
    b"PP\xC5\x81",
];

/// Creation times that are none: missing, of other lengths, of other years, and
/// with a month, day, hour, minute or second that there is not.
const NO_TIMES: [u64; 20] = [
    0,
    7,
    20_201_007,
    2_020_100_713_000,
    202_010_071_300_000,
    u64::MAX,
    19_991_231_235_959,
    21_000_101_000_000,
    20_200_007_130_000,
    20_201_307_130_000,
    20_201_000_130_000,
    20_201_032_130_000,
    20_200_931_130_000,
    20_210_229_130_000,
    20_201_007_240_000,
    20_201_007_136_000,
    20_201_007_130_060,
    20_201_007_999_999,
    120_201_007_130_000,
    20_201_007_130_000 + (1 << 63),
];

/// A book of one shipment ZS1 whose orders have these first faults; 0 is none.
fn book_of(faults: &[u8]) -> Book {
    let mut book = Book::empty();
    let draft = Draft::many("ZS1", faults.len());
    assert_eq!(intake(&mut book, &draft), accepted(faults.len() as u64, 0));
    for (row, fault) in book.shipments[0].rows.iter_mut().zip(faults) {
        if *fault > 0 {
            row.state = State::Faulty {
                fault: *fault,
                waits: Waits::BOTH,
            };
        }
    }
    assert!(book.is_sound());
    book
}

/// The OPE of ZS1 that this table gives.
fn ope(book: &Book, codes: &[u64]) -> Result<Vec<u8>, u32> {
    book.ope(b"ZS1", OWN_OPE, CREATED_OPE, codes)
}

/// The lines of a written file, each as its fields.
fn lines(file: &[u8]) -> Vec<Vec<String>> {
    let text = file.strip_prefix(b"\xEF\xBB\xBF").expect("the byte mark");
    let text = std::str::from_utf8(text).expect("UTF-8");
    let fields = |line: &str| line.split('|').map(String::from).collect();
    text.split("\r\n").map(fields).collect()
}

/// The fields behind the first of each record of ZS1's OPE.
fn records(book: &Book, codes: &[u64]) -> Vec<String> {
    let lines = lines(&ope(book, codes).unwrap());
    assert_eq!(lines[0][8], (lines.len() - 1).to_string());
    lines[1..].iter().map(|record| record.join("|")).collect()
}

#[test]
fn the_worked_rkf_of_an_accepted_file() {
    #[rustfmt::skip]
    let expected = [
        0xEF, 0xBB, 0xBF, 0x31, 0x7C, 0x50, 0x50, 0x7C, 0x52, 0x4B, 0x46, 0x7C, 0x31, 0x2E, 0x30, 0x7C,
        0x50, 0x50, 0x30, 0x30, 0x30, 0x30, 0x30, 0x30, 0x30, 0x30, 0x30, 0x31, 0x7C, 0x32, 0x30, 0x32,
        0x30, 0x31, 0x30, 0x30, 0x37, 0x31, 0x33, 0x30, 0x30, 0x30, 0x30, 0x7C, 0x45, 0x50, 0x45, 0x7C,
        0x5A, 0x53, 0x31, 0x7C, 0x31,
    ];
    // "Accepted file with faulty orders": intake takes ZS1, and the result is 1.
    let mut book = Book::empty();
    assert_eq!(intake(&mut book, &Draft::zs1()), accepted(3, 1));
    let file = rkf(OWN_RKF, CREATED_RKF, b"ZS1", 0).unwrap();
    assert_eq!(file, expected);
    assert_eq!(file.len(), 53);
}

#[test]
fn the_worked_rkf_of_a_refused_file() {
    let accepted = rkf(OWN_RKF, CREATED_RKF, b"ZS1", 0).unwrap();
    let mut expected = accepted[..52].to_vec();
    expected.extend([0x30, 0x0D, 0x0A]);
    expected.extend([0x32, 0x7C, 0x31, 0x7C, 0x30, 0x7C, 0x31, 0x30, 0x33]);
    let draft = Draft::zs1().header(7, "20200807120000");
    let answer = intake(&mut Book::empty(), &draft);
    assert_eq!(answer, Answer::Refused(103));
    let file = rkf(OWN_RKF, CREATED_RKF, b"ZS1", 103).unwrap();
    assert_eq!(file, expected);
    assert_eq!(file.len(), 64);
}

#[test]
fn the_worked_ope() {
    #[rustfmt::skip]
    let mut expected = vec![
        0xEF, 0xBB, 0xBF, 0x31, 0x7C, 0x50, 0x50, 0x7C, 0x4F, 0x50, 0x45, 0x7C, 0x31, 0x2E, 0x30, 0x7C,
        0x50, 0x50, 0x30, 0x30, 0x30, 0x30, 0x30, 0x30, 0x30, 0x30, 0x30, 0x33, 0x7C, 0x32, 0x30, 0x32,
        0x30, 0x31, 0x30, 0x30, 0x37, 0x31, 0x33, 0x31, 0x35, 0x30, 0x30, 0x7C, 0x45, 0x50, 0x45, 0x7C,
        0x5A, 0x53, 0x31, 0x7C, 0x31,
        0x0D, 0x0A,
    ];
    expected.extend(b"2|1|2|308");
    let file = ope(&zs1_waiting(), &CODES).unwrap();
    assert_eq!(file, expected);
    assert_eq!(file.len(), 64);
}

#[test]
fn the_longest_files() {
    let file = rkf(LONGEST, CREATED_RKF, LONGEST, 307).unwrap();
    assert_eq!(file.len(), 83);
    let mut book = book_of(&[1; 2_048]);
    book.shipments[0].name.identifier = LONGEST.to_vec();
    let file = book.ope(LONGEST, LONGEST, CREATED_OPE, &CODES).unwrap();
    assert_eq!(file.len(), 32_677);
}

#[test]
fn refusal_31_of_rkf() {
    for text in NO_IDENTIFIERS {
        assert_eq!(rkf(text, CREATED_RKF, b"ZS1", 0), Err(31), "{text:?}");
        assert_eq!(rkf(OWN_RKF, CREATED_RKF, text, 0), Err(31), "{text:?}");
    }
    for created in NO_TIMES {
        assert_eq!(rkf(OWN_RKF, created, b"ZS1", 0), Err(31), "{created}");
    }
    // "Intake's 901, 902, 900, 903 to 907 and those below 100": 31.
    let outside = (1..100).chain(308..1_000).chain([1 << 32, u64::MAX]);
    for refusal in outside {
        let file = rkf(OWN_RKF, CREATED_RKF, b"ZS1", refusal);
        assert_eq!(file, Err(31), "{refusal}");
    }
}

#[test]
fn rkf_takes_every_code_of_its_range() {
    // Also those that table 5 does not have (100, 123, 175 ..), those that it
    // has for other files (104, 113), and record number 0 for 301 to 307.
    for refusal in 100..=307 {
        let file = rkf(OWN_RKF, CREATED_RKF, b"ZS1", refusal).unwrap();
        let lines = lines(&file);
        assert_eq!(lines.len(), 2);
        assert_eq!(lines[0][8], "0");
        assert_eq!(lines[1], ["2", "1", "0", &refusal.to_string()]);
    }
}

#[test]
fn identifiers_are_asked_for_their_form_alone() {
    // No PP in front, own and source equal, 3 and 17 bytes, either case.
    for (own, source) in [
        (&b"ZS1"[..], &b"ZS1"[..]),
        (b"abc", b"XYZ"),
        (LONGEST, b"ET1"),
        (b"PP1", LONGEST),
    ] {
        let lines = lines(&rkf(own, CREATED_RKF, source, 0).unwrap());
        assert_eq!(lines[0][4].as_bytes(), own);
        assert_eq!(lines[0][7].as_bytes(), source);
    }
    let file = zs1_waiting().ope(b"ZS1", b"ZS1", CREATED_OPE, &CODES);
    assert_eq!(lines(&file.unwrap())[0][4], "ZS1");
}

#[test]
fn a_creation_time_is_any_real_date_and_time() {
    // No window around any day; both ends of the years and of the day.
    for created in [
        20_000_101_000_000,
        20_000_229_235_959,
        20_240_229_000_001,
        20_991_231_235_959,
    ] {
        let written = created.to_string();
        let file = rkf(OWN_RKF, created, b"ZS1", 0).unwrap();
        assert_eq!(lines(&file)[0][5], written);
        let file = zs1_waiting().ope(b"ZS1", OWN_OPE, created, &CODES);
        assert_eq!(lines(&file.unwrap())[0][5], written);
    }
}

#[test]
fn refusal_31_of_ope() {
    let book = zs1_waiting();
    for text in NO_IDENTIFIERS {
        let file = book.ope(b"ZS1", text, CREATED_OPE, &CODES);
        assert_eq!(file, Err(31), "{text:?}");
    }
    for created in NO_TIMES {
        let file = book.ope(b"ZS1", OWN_OPE, created, &CODES);
        assert_eq!(file, Err(31), "{created}");
    }
    // ZS1 has fault 1 alone.
    for code in [0, 103, 307, 337, 1_308, 308 + (1 << 32), u64::MAX] {
        let mut codes = CODES;
        codes[0] = code;
        assert_eq!(ope(&book, &codes), Err(31), "{code}");
    }
    for code in 308..=336 {
        let records = records(&book, &[code]);
        assert_eq!(records, [format!("2|1|2|{code}")]);
    }
}

#[test]
fn each_fault_has_its_place_in_the_table() {
    for fault in 1..=10 {
        let book = book_of(&[0, fault]);
        let place = usize::from(fault) - 1;
        let record = format!("2|1|2|{}", CODES[place]);
        assert_eq!(records(&book, &CODES), [record.as_str()]);
        // "only codes used are judged"
        for other in [0, 307, 337, u64::MAX] {
            let mut codes = [other; 10];
            codes[place] = CODES[place];
            assert_eq!(records(&book, &codes), [record.as_str()]);
            codes = CODES;
            codes[place] = other;
            assert_eq!(ope(&book, &codes), Err(31), "fault {fault}, {other}");
        }
        // A used entry that isn't there is missing, others may be.
        for length in 0..10 {
            let file = ope(&book, &CODES[..length]);
            assert_eq!(file.is_ok(), length > place, "fault {fault} of {length}");
            assert!(file.is_ok() || file == Err(31));
        }
    }
}

#[test]
fn entries_behind_the_tenth_are_never_read() {
    let book = book_of(&[10]);
    for behind in [0, 308, u64::MAX] {
        let codes = [&CODES[..], &[behind; 3]].concat();
        assert_eq!(records(&book, &codes), ["2|1|1|317"]);
    }
}

#[test]
fn without_faults_ope_is_its_header_alone() {
    let book = book_of(&[0, 0]);
    for codes in [&[][..], &[0; 10], &CODES] {
        let file = ope(&book, codes).unwrap();
        let header = b"\xEF\xBB\xBF1|PP|OPE|1.0|PP0000000003|20201007131500|EPE|ZS1|0";
        assert_eq!(file, header);
    }
}

#[test]
fn records_rise_and_their_running_number_counts() {
    let book = book_of(&[0, 3, 0, 0, 1, 10, 3]);
    let expected = ["2|1|2|310", "2|2|5|308", "2|3|6|317", "2|4|7|310"];
    assert_eq!(records(&book, &CODES), expected);
    // "Counts and numbers have no leading zeros"
    for faulty in [1, 9, 10, 99, 100, 1_000, 2_047] {
        let mut faults = vec![0];
        faults.resize(1 + faulty, 7);
        let records = records(&book_of(&faults), &CODES);
        assert_eq!(records.len(), faulty);
        for (running, record) in (1..).zip(&records) {
            assert_eq!(*record, format!("2|{running}|{}|314", running + 1));
        }
    }
}

#[test]
fn an_order_of_several_faults_has_one_record() {
    let mut book = Book::empty();
    let draft = Draft::new("ZS1", &["1.00"]).field(5, "").field(7, "x");
    assert_eq!(intake(&mut book, &draft), accepted(1, 1));
    assert_eq!(records(&book, &CODES), ["2|1|1|309"]);
}

#[test]
fn a_faulty_order_is_listed_in_every_stage_and_after_opr() {
    let listed = |book: &Book| assert_eq!(records(book, &CODES), ["2|1|2|308"]);
    let mut book = zs1_waiting();
    listed(&book);
    assert_eq!(close(&mut book, "ZS1"), Answer::Done);
    listed(&book);
    let mut book = zs1_paired();
    listed(&book);
    assert_eq!(give_back(&mut book, "ZS1", OPR, K), returned(5_000, 1));
    listed(&book);
    assert_eq!(give_back(&mut book, "ZS1", OPR, O), returned(350, 1));
    listed(&book);
    // Orders in other states are not.
    for order in [1, 3] {
        post(&mut book, "ZS1", order);
    }
    pay(&mut book, "ZS1", 1);
    mark_undelivered(&mut book, "ZS1", 3);
    listed(&book);
}

#[test]
fn ope_is_of_the_named_shipment_alone() {
    let mut book = zs1_waiting();
    let draft = Draft::new("ZS2", &["1.00", "2.00"]).field(15, "");
    assert_eq!(intake(&mut book, &draft), accepted(2, 1));
    let file = book.ope(b"ZS2", OWN_OPE, CREATED_OPE, &CODES).unwrap();
    let lines = lines(&file);
    assert_eq!(lines[0][7..], ["ZS2", "1"]);
    assert_eq!(lines[1], ["2", "1", "1", "316"]);
    assert_eq!(records(&book, &CODES), ["2|1|2|308"]);
}

/// Writes into outputs of every length up to four bytes too many: 30 where they
/// are too short, else the file and nothing else.
fn write_at_every_length(file: &[u8], write: impl Fn(&mut [u8]) -> Result<usize, u32>) {
    for length in 0..=file.len() + 4 {
        let mut output = vec![0xAA; length];
        let answer = write(&mut output);
        if length < file.len() {
            assert_eq!(answer, Err(30), "{length}");
            assert_eq!(output, vec![0xAA; length]);
        } else {
            assert_eq!(answer, Ok(file.len()), "{length}");
            assert_eq!(output[..file.len()], *file);
            assert_eq!(output[file.len()..], vec![0xAA; length - file.len()]);
        }
    }
}

#[test]
fn refusal_30_an_output_too_short() {
    for refusal in [0, 103] {
        let file = rkf(OWN_RKF, CREATED_RKF, b"ZS1", refusal).unwrap();
        write_at_every_length(&file, |output| {
            rkf_into(OWN_RKF, CREATED_RKF, b"ZS1", refusal, output)
        });
    }
    for book in [zs1_waiting(), book_of(&[0]), book_of(&[4; 11])] {
        let file = ope(&book, &CODES).unwrap();
        write_at_every_length(&file, |output| {
            book.ope_into(b"ZS1", OWN_OPE, CREATED_OPE, &CODES, output)
        });
    }
}

#[test]
fn the_earlier_question_answers() {
    // "31 [...] asked just before" 30, which is "asked last".
    let answer = rkf_into(OWN_RKF, 0, b"ZS1", 0, &mut []);
    assert_eq!(answer, Err(31));
    let mut book = zs1_paired();
    let ope = |book: &Book, identifier: &[u8], created, output: &mut [u8]| {
        book.ope_into(identifier, OWN_OPE, created, &CODES, output)
    };
    assert_eq!(ope(&book, b"ZS1", CREATED_OPE, &mut []), Err(30));
    assert_eq!(ope(&book, b"ZS1", 0, &mut []), Err(31));
    assert_eq!(ope(&book, b"ZS2", 0, &mut []), Err(13));
    assert_eq!(ope(&book, b"ZS1\0", CREATED_OPE, &mut [0; 99]), Err(13));
    book.shipments[0].accepted_k -= 1;
    let mut output = [0xAA; 99];
    assert_eq!(ope(&book, b"ZS2", 0, &mut []), Err(10));
    assert_eq!(ope(&book, b"ZS1", CREATED_OPE, &mut output), Err(10));
    assert_eq!(output, [0xAA; 99]);
}
