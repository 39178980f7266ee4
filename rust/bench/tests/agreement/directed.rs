//! Each question answered no, each fault and each call that is done, once.

use crate::Rivals;
use bench::calls::{Answer, Call};
use bench::files::{order_file, Records, PROFILE};
use buntingraft::{Accepted, Money, Profile, Returned, Route};

const NAME: &str = "EPEZZS1-201007-A-0";
const FILE: &str = "\u{FEFF}1|ZUS|EPE|1.0|ZS1|ABC123|20201007120000|20201007|A|0|3|175.50\r\n\
    2|1|100.00|Nowak|Jan|Łódź|90-001|Łódź|Żwirki|7A|||UP 1|R1|2020-10||||||000\r\n\
    2|2|50.00||Jan|Łódź|90-001|Łódź|Żwirki|7A|||UP 1|R1|2020-10||||||000\r\n\
    2|3|25.50|Lis|Ewa|Łódź|90-001|Łódź|Żwirki|7A|||UP 1|R1|2020-10||||||000\r\n";

/// What the rivals answer to the intake of a file in a book of their own.
fn intake(name: &str, file: &str) -> Answer {
    let file = file.as_bytes();
    Rivals::new().make(Call::Intake(&PROFILE, name.as_bytes(), file))
}

/// Names, and the questions that they answer no beside the good file.
const NAMES: &[(&str, u64)] = &[
    ("EPEZZS1-201007-A0", 3),
    ("EPEZZS1-201007-A-0-", 3),
    ("EPXZZS1-201007-A-0", 7),
    ("---", 7),
    ("EPE---", 10),
    ("EPEZ---", 13),
    ("EPEZZ11-201007-A-0", 13),
    ("EPEZZS1-201307-A-0", 16),
    ("EPEZZS1-210229-A-0", 16),
    ("EPEZZS1-20201007-A-0", 16),
    ("EPEZZS1-201007-C-0", 19),
    ("EPEZZS1-201007--0", 19),
    ("EPEZZS1-201007-A-5", 22),
    ("EPEZZS1-201007-A-00", 22),
    ("EPEZZS2-201007-A-0", 14),
    ("EPEZZS1-201006-A-0", 17),
    ("EPEZZS1-201007-B-0", 20),
    ("EPEZZS1-201007-A-1", 23),
];

/// What is replaced in the good file by what, and the question then answered no.
const EDITS: &[(&str, &str, u64)] = &[
    ("\u{FEFF}", "", 34),
    ("\u{FEFF}1", "\u{FEFF}\u{FEFF}1", 5),
    ("ABC123", "ABC|123", 4),
    ("ABC123", "ABC\r123", 4),
    ("175.50\r\n", "175.50\n", 4),
    ("175.50\r\n", "175.50\r\r\n", 4),
    ("ZUS", "ZUs", 11),
    ("EPE", "EPA", 8),
    ("1.0", "1.1", 99),
    ("20201007120000", "", 102),
    ("20201007120000", "20201007240000", 103),
    ("20201007120000", "20200807120000", 103),
    ("20201007120000", "20201018120000", 103),
    ("ABC123", "", 120),
    ("ABC123", "ABC12Ł", 121),
    ("|0|3|", "|0||", 126),
    ("|0|3|", "|0|0000003|", 126),
    ("|0|3|", "|0|0|", 127),
    ("175.50", "175.5", 130),
    ("175.50", "000000000175.50", 130),
    ("175.50", "0175.50", 130),
    ("175.50", "00.00", 130),
    ("175.50", "0.00", 131),
    ("2|2|", "2|3|", 901),
    ("2|2|", "3|2|", 901),
    ("2|2|", "2|0000002|", 901),
    ("|000\r\n2|2", "|000\n2|2", 901),
    ("|000\r\n2|2", "|000\r\r\n2|2", 901),
    ("Nowak", "No|wak", 901),
    ("|000\r\n2|2", "\r\n2|2", 901),
    ("Lis", "L\ris", 901),
    ("|25.50", "|25.5", 902),
    ("|25.50", "|00000025.50", 902),
    ("|25.50", "|025.50", 902),
    ("|25.50", "|00.00", 902),
    ("|25.50", "|0.00", 902),
    ("|0|3|", "|0|4|", 129),
    ("175.50", "175.51", 132),
];

#[test]
fn names_are_asked_alike() {
    for (name, number) in NAMES {
        assert_eq!(intake(name, FILE), Answer::Refused(*number), "{name}");
    }
}

#[test]
fn files_are_asked_alike() {
    for (from, to, number) in EDITS {
        assert!(FILE.contains(from), "{from}");
        let answer = intake(NAME, &FILE.replacen(from, to, 1));
        assert_eq!(answer, Answer::Refused(*number), "{from} as {to}");
    }
    let with_empty_line = FILE.to_owned() + "\r\n";
    assert_eq!(intake(NAME, &with_empty_line), Answer::Refused(901));
    assert_eq!(intake(NAME, ""), Answer::Refused(1));
}

/// Texts of money, and what the good file is refused with that has them as its
/// sum, and as an amount; 0 where it is taken in.
const MONEY: &[(&str, u64, u64)] = &[
    ("0.00", 131, 902),
    ("0.01", 132, 132),
    ("0.99", 132, 132),
    ("7.50", 132, 132),
    ("25.50", 132, 0),
    ("175.50", 0, 132),
    ("9999999.99", 132, 132),
    ("10000000.00", 132, 902),
    ("99999999999.99", 132, 902),
    ("100000000000.00", 130, 902),
    ("x.00", 130, 902),
];

#[test]
fn spellings_are_read_alike() {
    for (text, sum, amount) in MONEY {
        for zeros in 0..=13 {
            let spelt = "0".repeat(zeros) + text;
            let numbers = match zeros {
                0 => [*sum, *amount],
                _ => [130, 902],
            };
            for (from, number) in ["|175.50", "|25.50"].into_iter().zip(numbers) {
                let answer = intake(NAME, &FILE.replacen(from, &format!("|{spelt}"), 1));
                match number {
                    0 => assert!(matches!(answer, Answer::Accepted(_)), "{spelt} {answer:?}"),
                    _ => assert_eq!(answer, Answer::Refused(number), "{spelt} for {from}"),
                }
            }
        }
    }
}

#[test]
fn counts_keep_their_zeros_alike() {
    for zeros in 0..=7 {
        let too_long = zeros > 5;
        let zeros = "0".repeat(zeros);
        for (from, to, number) in [
            ("|0|3|", format!("|0|{zeros}3|"), 126),
            ("2|2|", format!("2|{zeros}2|"), 901),
        ] {
            let answer = intake(NAME, &FILE.replacen(from, &to, 1));
            let is_refused = answer == Answer::Refused(number);
            assert_eq!(is_refused, too_long, "{to} {answer:?}");
        }
    }
}

#[test]
fn faults_are_judged_alike() {
    let letters = |n: usize| "Ł".repeat(n);
    let cases = [
        (4, letters(31), letters(32)),
        (5, letters(22), letters(23)),
        (6, letters(35), letters(36)),
        (7, "00-000".into(), "00-00Ł".into()),
        (8, letters(35), letters(36)),
        (9, letters(35), letters(36)),
        (10, letters(11), letters(12)),
        (12, "PR".into(), "PX".into()),
        (12, "SP_00000".into(), "SP_".into()),
        (12, "PP_1".into(), "PP_123456".into()),
        (14, letters(20), letters(21)),
        (15, letters(35), letters(36)),
        (16, "-".into(), " ".into()),
        (19, "a b".into(), "a ".into()),
        (20, " ".into(), " | ".into()),
    ];
    for (field, good, bad) in cases {
        for (text, faulty) in [(good, 1), (bad, 2)] {
            let mut lines: Vec<&str> = FILE.split("\r\n").collect();
            let mut record: Vec<&str> = lines[1].split('|').collect();
            record[field - 1] = &text;
            let record = record.join("|");
            lines[1] = &record;
            let expected = match field {
                20 if faulty == 2 => Answer::Refused(901),
                _ => Answer::Accepted(Accepted { orders: 3, faulty }),
            };
            assert_eq!(
                intake(NAME, &lines.join("\r\n")),
                expected,
                "{field} {text}"
            );
        }
    }
}

#[test]
fn profiles_and_windows_are_asked_alike() {
    let mut cases = vec![
        (20_200_907, 0),
        (20_200_906, 103),
        (20_201_106, 0),
        (20_201_107, 125),
    ];
    cases.extend([(19_991_231, 905), (21_000_101, 905), (1 << 40, 905)]);
    for (today, number) in cases {
        let file = FILE.replacen("20201007120000", "20200917120000", 1);
        let profile = Profile { today, ..PROFILE };
        let answer = Rivals::new().make(Call::Intake(&profile, NAME.as_bytes(), file.as_bytes()));
        match number {
            0 => assert!(matches!(answer, Answer::Accepted(_)), "{today} {answer:?}"),
            _ => assert_eq!(answer, Answer::Refused(number), "{today}"),
        }
    }
    for fields in [18, 19, 20, 32, 33] {
        let profile = Profile { fields, ..PROFILE };
        Rivals::new().make(Call::Intake(&profile, NAME.as_bytes(), FILE.as_bytes()));
    }
}

#[test]
fn flat_parts_and_rates_are_asked_alike() {
    let cases = [
        (350, 10_000, 0),
        (350, 10_001, 907),
        (350, u64::MAX, 907),
        (999_999_999, 0, 0),
        (999_999_998, 1, 0),
        (999_999_999, 1, 906),
        (999_989_999, 10_000, 0),
        (999_990_000, 10_000, 906),
        (1_000_000_000, 10_001, 905),
    ];
    for (flat, rate, number) in cases {
        let profile = Profile {
            flat: [flat; 5],
            rates: [rate; 5],
            ..PROFILE
        };
        let answer = Rivals::new().make(Call::Intake(&profile, NAME.as_bytes(), FILE.as_bytes()));
        match number {
            0 => assert!(matches!(answer, Answer::Accepted(_)), "{flat} {rate}"),
            _ => assert_eq!(answer, Answer::Refused(number), "{flat} {rate}"),
        }
    }
}

#[test]
fn the_largest_amount_of_a_file_too_long_is_asked_for_its_fee_alike() {
    let file = order_file("ZS1", 2_049, Records::Polish);
    let text = String::from_utf8(file.bytes).expect("a file is text");
    let (records, _) = text.rsplit_once("|000").expect("a record ends so");
    let (records, last) = records.rsplit_once("\r\n").expect("a last record");
    let mut fields: Vec<&str> = last.split('|').collect();
    let amount: u64 = fields[2].replace('.', "").parse().expect("an amount");
    fields[2] = "9999999.99";
    let total = file.sum - amount + 999_999_999;
    let (header, records) = records.split_once("\r\n").expect("a header");
    let (header, _) = header.rsplit_once('|').expect("a sum");
    let total = format!("{}.{:02}", total / 100, total % 100);
    let text = format!("{header}|{total}\r\n{records}\r\n{}|000", fields.join("|"));
    for (flat, number) in [(999_900_000, 904), (999_900_001, 906)] {
        let profile = Profile {
            flat: [flat; 5],
            rates: [1; 5],
            ..PROFILE
        };
        let answer = Rivals::new().make(Call::Intake(&profile, &file.name, text.as_bytes()));
        assert_eq!(answer, Answer::Refused(number));
    }
}

#[test]
fn fees_of_zero_go_back_alike() {
    let profile = Profile {
        flat: [0; 5],
        rates: [1; 5],
        ..PROFILE
    };
    let mut rivals = Rivals::new();
    let returned = |sum, count| Answer::Returned(Returned { sum, count });
    let opr = Call::GiveBack(ID, Route::Opr, Money::O);
    let zzr = Call::GiveBack(ID, Route::Zzr, Money::O);
    for call in [
        Call::Intake(&profile, NAME.as_bytes(), FILE.as_bytes()),
        Call::Transfer(b"EPEZZS1-201007-A-0-K", 17_550),
        Call::GoAhead(ID),
        Call::Transfer(b"EPEZZS1-201007-A-0-O", 1),
        Call::Pair(ID),
        Call::Withdraw(ID, 3),
    ] {
        let answer = rivals.make(call);
        assert!(!matches!(answer, Answer::Refused(_)), "{call:?} {answer:?}");
    }
    assert_eq!(rivals.make(opr), Answer::Refused(23));
    assert_eq!(rivals.make(zzr), Answer::Refused(23));
    assert_eq!(rivals.make(Call::Withdraw(ID, 1)), Answer::Done);
    assert_eq!(rivals.make(zzr), returned(1, 2));
    assert_eq!(rivals.make(zzr), Answer::Refused(23));
    assert_eq!(rivals.make(opr), Answer::Refused(23));
}

const ID: &[u8] = b"ZS1";

/// A list of calls, each with its refusal, or 0 where it is not refused.
const LIST: &[(Call, u64)] = &[
    (Call::Intake(&PROFILE, NAME.as_bytes(), FILE.as_bytes()), 0),
    (
        Call::Intake(&PROFILE, NAME.as_bytes(), FILE.as_bytes()),
        101,
    ),
    (Call::Transfer(b"EPEZZS1-201007-A-0", 1), 11),
    (Call::Transfer(b"EPEZZS1-201007-A-0-k", 1), 11),
    (Call::Transfer(b"EPEZZS1-201007-A-0-K", 0), 12),
    (
        Call::Transfer(b"EPEZZS1-201007-A-0-K", 10_000_000_000_000),
        12,
    ),
    (Call::Transfer(b"EPEZZS1-201007-B-0-K", 1), 13),
    (Call::Transfer(b"EPEZZS1-19201007-A-0-K", 1), 11),
    (Call::Transfer(b"EPEZZS1-20200230-A-0-K", 1), 11),
    (Call::Transfer(b"EPEZZS1-2020107-A-0-K", 1), 11),
    (Call::Transfer(b"EPEZZS1-202010070-A-0-K", 1), 11),
    (Call::Transfer(b"EPEZZS1-20-201007-A-0-K", 1), 11),
    (Call::Transfer(b"EPEZZS1-20201007-A-0", 1), 11),
    (Call::Transfer(b"EPEZZS1-20201007-A-0-K", 0), 12),
    (Call::Transfer(b"EPEZZS1-20201007-B-0-K", 1), 13),
    (Call::Transfer(b"EPEZZS1-201007-A-0-K", 17_549), 0),
    (
        Call::Transfer(b"EPEZZS1-201007-A-0-K", 9_999_999_999_999),
        14,
    ),
    (Call::GiveBack(ID, Route::Zwr, Money::K), 24),
    (Call::Post(ID, 1), 19),
    (Call::Pair(ID), 18),
    (Call::GoAhead(b""), 13),
    (Call::GoAhead(ID), 0),
    (Call::GoAhead(ID), 17),
    (Call::Pair(ID), 0),
    (Call::Transfer(b"EPEZZS1-20201007-A-0-K", 101), 0),
    (Call::Transfer(b"EPEZZS1-201007-A-0-O", 1_050), 0),
    (Call::Pair(ID), 0),
    (Call::Pair(ID), 15),
    (Call::Close(ID), 15),
    (Call::Post(ID, 0), 20),
    (Call::Post(ID, 4), 20),
    (Call::Post(ID, u64::MAX), 20),
    (Call::Post(ID, 2), 21),
    (Call::Post(ID, 1), 0),
    (Call::MarkUndelivered(ID, 1), 0),
    (Call::Pay(ID, 1), 21),
    (Call::Withdraw(ID, 3), 0),
    (Call::GiveBack(ID, Route::Zwr, Money::K), 0),
    (Call::GiveBack(ID, Route::Zwr, Money::K), 23),
    (Call::GiveBack(ID, Route::Zwr, Money::O), 23),
    (Call::GiveBack(ID, Route::Opr, Money::K), 0),
    (Call::GiveBack(ID, Route::Opr, Money::K), 23),
    (Call::GiveBack(ID, Route::Opr, Money::O), 0),
    (Call::GiveBack(ID, Route::Zpr, Money::K), 0),
    (Call::GiveBack(ID, Route::Zpr, Money::O), 22),
    (Call::GiveBack(ID, Route::Zzr, Money::K), 0),
    (Call::GiveBack(ID, Route::Zzr, Money::O), 0),
    (Call::GiveBack(ID, Route::Zzr, Money::O), 23),
];

#[test]
fn the_calls_on_a_shipment_are_answered_alike() {
    let mut rivals = Rivals::new();
    for (call, refusal) in LIST {
        match rivals.make(*call) {
            Answer::Refused(number) => assert_eq!(number, *refusal, "{call:?}"),
            answer => assert_eq!(*refusal, 0, "{call:?} {answer:?}"),
        }
    }
}

#[test]
fn a_go_ahead_without_faults_is_refused_alike() {
    let mut rivals = Rivals::new();
    let file = order_file("ZS1", 3, Records::Polish);
    rivals.make(Call::Intake(&PROFILE, &file.name, &file.bytes));
    assert_eq!(rivals.make(Call::GoAhead(ID)), Answer::Refused(16));
}

#[test]
fn a_book_fills_up_alike() {
    let mut by_rows = Rivals::new();
    let mut by_shipments = Rivals::new();
    for number in 0..34 {
        let id = format!("FS{number}");
        for (rivals, orders) in [(&mut by_rows, 120), (&mut by_shipments, 2)] {
            let file = order_file(&id, orders, Records::Faulty);
            let answer = rivals.make(Call::Intake(&PROFILE, &file.name, &file.bytes));
            let expected = match (orders, number) {
                (120, 17..) => Some(904),
                (2, 32..) => Some(903),
                _ => None,
            };
            match expected {
                Some(refusal) => assert_eq!(answer, Answer::Refused(refusal), "{id}"),
                None => assert!(matches!(answer, Answer::Accepted(_)), "{id} {answer:?}"),
            }
        }
    }
}

#[test]
fn large_files_are_taken_in_or_refused_alike() {
    for (orders, records) in [
        (2_048, Records::Ascii),
        (2_048, Records::Faulty),
        (5_000, Records::Polish),
    ] {
        let file = order_file("ZS1", orders, records);
        let answer = Rivals::new().make(Call::Intake(&PROFILE, &file.name, &file.bytes));
        assert_eq!(answer == Answer::Refused(904), orders > 2_048, "{orders}");
    }
}
