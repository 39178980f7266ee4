//! The questions that each call asks, in the order in which it asks them, with
//! the number that a "no" is refused with.

use std::fmt;

/// The calls.
#[derive(Clone, Copy, Debug, PartialEq, Eq, PartialOrd, Ord, Hash)]
pub enum Call {
    /// Making an empty book.
    MakeEmpty,
    /// An order file comes in.
    Intake,
    /// A bank transfer comes in.
    Transfer,
    /// The insurer's go-ahead (OBS) comes in.
    GoAhead,
    /// A shipment is paired with its transfers.
    Pair,
    /// A shipment is closed (WYC or ODR).
    Close,
    /// An order is posted.
    Post,
    /// An order is paid out.
    Pay,
    /// An order comes back undelivered.
    MarkUndelivered,
    /// An order is withdrawn.
    Withdraw,
    /// Money goes back to the insurer.
    Return,
    /// The balance sheet is filled.
    Sheet,
    /// The report on an order file (RKF) is written.
    WriteRkf,
    /// The report on a shipment's faulty orders (OPE) is written.
    WriteOpe,
    /// Money is written as text.
    WriteMoney,
    /// The amount that makes a total is found.
    AmountFor,
    /// An extra address field is judged early.
    JudgeExtra,
    /// A record is judged without its extra address field.
    JudgeAround,
    /// A book is stored.
    Store,
    /// A stored book is loaded.
    Load,
}

/// A question that a call asks, and its number.
#[derive(Clone, Copy, Debug, PartialEq, Eq)]
pub struct Question {
    /// The number that a "no" is refused with.
    pub number: u64,
    /// The question, as include/buntingraft.h words it.
    pub text: &'static str,
}

impl Call {
    /// Every call.
    pub const ALL: [Call; 20] = [
        Call::MakeEmpty,
        Call::Intake,
        Call::Transfer,
        Call::GoAhead,
        Call::Pair,
        Call::Close,
        Call::Post,
        Call::Pay,
        Call::MarkUndelivered,
        Call::Withdraw,
        Call::Return,
        Call::Sheet,
        Call::WriteRkf,
        Call::WriteOpe,
        Call::WriteMoney,
        Call::AmountFor,
        Call::JudgeExtra,
        Call::JudgeAround,
        Call::Store,
        Call::Load,
    ];

    /// The questions that this call asks. A return asks 24 of ZWR, and 19 and
    /// 22 of the other routes.
    pub fn questions(self) -> &'static [Question] {
        match self {
            Call::MakeEmpty => MAKE_EMPTY,
            Call::Intake => INTAKE,
            Call::Transfer => TRANSFER,
            Call::GoAhead => GO_AHEAD,
            Call::Pair => PAIR,
            Call::Close => CLOSE,
            Call::Post | Call::Pay | Call::MarkUndelivered | Call::Withdraw => ON_ORDER,
            Call::Return => RETURN,
            Call::Sheet => SHEET,
            Call::WriteRkf => WRITE_RKF,
            Call::WriteOpe => WRITE_OPE,
            Call::WriteMoney => WRITE_MONEY,
            Call::AmountFor => AMOUNT_FOR,
            Call::JudgeExtra => JUDGE_EXTRA,
            Call::JudgeAround => JUDGE_AROUND,
            Call::Store => STORE,
            Call::Load => LOAD,
        }
    }
}

impl fmt::Display for Call {
    fn fmt(&self, f: &mut fmt::Formatter<'_>) -> fmt::Result {
        f.pad(match self {
            Call::MakeEmpty => "make empty",
            Call::Intake => "intake",
            Call::Transfer => "transfer",
            Call::GoAhead => "go-ahead",
            Call::Pair => "pair",
            Call::Close => "close",
            Call::Post => "post",
            Call::Pay => "pay",
            Call::MarkUndelivered => "mark undelivered",
            Call::Withdraw => "withdraw",
            Call::Return => "return",
            Call::Sheet => "sheet",
            Call::WriteRkf => "write RKF",
            Call::WriteOpe => "write OPE",
            Call::WriteMoney => "write money",
            Call::AmountFor => "amount for",
            Call::JudgeExtra => "judge extra",
            Call::JudgeAround => "judge around",
            Call::Store => "store",
            Call::Load => "load",
        })
    }
}

/// A question by its number and words.
const fn ask(number: u64, text: &'static str) -> Question {
    Question { number, text }
}

const SOUND_WORDS: &str = "Is the book's memory long enough, and a sound book?";
const SOUND: Question = ask(10, SOUND_WORDS);
const KNOWN: Question = ask(13, "Is the identifier in the book?");
const WAITING: Question = ask(15, "Is the shipment Waiting?");
const PAIRED: Question = ask(19, "Is the shipment Paired?");
const LONG_ENOUGH: Question = ask(30, "Is the output long enough?");

const MAKE_EMPTY: &[Question] = &[ask(10, "Is the memory long enough?")];

const INTAKE: &[Question] = &[
    ask(
        905,
        "Are the profile's date, its five flat parts and its number of fields within their ranges?",
    ),
    ask(907, "Is each of the profile's five rates at most 10,000?"),
    ask(900, SOUND_WORDS),
    ask(1, "Is the file longer than 0 bytes?"),
    ask(
        34,
        "Is the byte mark EF BB BF there, and the rest well-formed UTF-8?",
    ),
    ask(3, "Has the name exactly three hyphens?"),
    ask(7, "Does the name start with EPE?"),
    ask(10, "Then Z?"),
    ask(13, "Is the rest of its first part an identifier?"),
    ask(
        16,
        "Is its second part six digits, and 20yymmdd a real date?",
    ),
    ask(19, "Is its third part A or B?"),
    ask(22, "Is its fourth part one digit 0 to 4?"),
    ask(4, "Has the header 12 fields, and no stray CR or LF?"),
    ask(5, "Is header field 1 (mark) `1`?"),
    ask(11, "Is header field 2 (sender) `ZUS`?"),
    ask(8, "Is header field 3 (file code) `EPE`?"),
    ask(99, "Is header field 4 (edition) `1.0`?"),
    ask(14, "Is header field 5 (identifier) the name's?"),
    ask(
        17,
        "Is header field 8 (benefit date, yyyymmdd) `20` and the name's date?",
    ),
    ask(20, "Is header field 9 (payment kind) the name's?"),
    ask(23, "Is header field 10 (benefit kind) the name's?"),
    ask(101, "Is the identifier not yet in the book?"),
    ask(
        102,
        "Is header field 7 (created, yyyymmddhhmmss) not empty?",
    ),
    ask(
        103,
        "Is it a real date and time of day, from 60 days before today to 10 days after?",
    ),
    ask(120, "Is header field 6 (unit) not empty?"),
    ask(121, "Is it six letters or digits?"),
    ask(
        125,
        "Is header field 8 (benefit date) within 30 days of today on either side?",
    ),
    ask(126, "Is header field 11 (order count) 1 to 6 digits?"),
    ask(127, "Is it at least 1?"),
    ask(
        130,
        "Does header field 12 (sum) read as a sum: 1 to 11 digits without a leading zero, \
         a point, 2 digits?",
    ),
    ask(131, "Is it above zero?"),
    ask(
        901,
        "Has every record line R fields and no stray CR or LF, its first field `2`, \
         its second 1 to 6 digits counting 1, 2, 3 ..?",
    ),
    ask(
        902,
        "Does every record's field 3 read as an amount, 1 to 7 digits without a leading zero, \
         a point, 2 digits, and above zero?",
    ),
    ask(
        129,
        "Are there as many record lines as header field 11 says?",
    ),
    ask(132, "Do the amounts add up to header field 12?"),
    ask(906, "Is every order's fee at most 999,999,999?"),
    ask(903, "Are there fewer than 32 shipments in the book?"),
    ask(904, "Do the orders fit, with those present, in 2,048 rows?"),
];

const TRANSFER: &[Question] = &[
    SOUND,
    ask(
        11,
        "Is the title a shipment name, with a date of six digits or of `20` and six, \
         and then `-K` or `-O`?",
    ),
    ask(12, "Is the amount 1 to 9,999,999,999,999?"),
    ask(13, "Is a shipment of that whole name in the book?"),
    ask(
        14,
        "Would the shipment's transfers of that money, with this one, \
         still be at most 9,999,999,999,999 in all?",
    ),
];

const GO_AHEAD: &[Question] = &[
    SOUND,
    KNOWN,
    WAITING,
    ask(16, "Has it a faulty order?"),
    ask(17, "Has no go-ahead come before?"),
];

const PAIR: &[Question] = &[
    SOUND,
    KNOWN,
    WAITING,
    ask(18, "Has it no faulty order, or a go-ahead?"),
];

const CLOSE: &[Question] = &[SOUND, KNOWN, WAITING];

const ON_ORDER: &[Question] = &[
    SOUND,
    KNOWN,
    PAIRED,
    ask(20, "Is the order's number 1 to the number of orders?"),
    ask(21, "Is the order in the state that the call takes?"),
];

const RETURN: &[Question] = &[
    SOUND,
    KNOWN,
    ask(24, "Is the shipment not Waiting?"),
    PAIRED,
    ask(22, "Is it not ZPR with O?"),
    ask(23, "Is there anything above zero to return?"),
];

const SHEET: &[Question] = &[
    SOUND,
    ask(25, "Has the table a row for each shipment?"),
    ask(26, "Is no total above 999,999,999,999,999 after adding?"),
];

const WRITE_RKF: &[Question] = &[
    ask(
        31,
        "Are both identifiers in form, is the creation time a real date and time, \
         and is the refusal 0 or 100 to 307?",
    ),
    LONG_ENOUGH,
];

const WRITE_OPE: &[Question] = &[
    SOUND,
    KNOWN,
    ask(
        31,
        "Is the own identifier in form, is the creation time a real date and time, \
         and has each fault of the shipment a code of 308 to 336?",
    ),
    LONG_ENOUGH,
];

const WRITE_MONEY: &[Question] = &[LONG_ENOUGH];

const AMOUNT_FOR: &[Question] = &[
    ask(907, "Is the rate at most 10,000?"),
    ask(905, "Is the flat part at most 999,999,999?"),
];

const JUDGE_EXTRA: &[Question] = &[];

const JUDGE_AROUND: &[Question] = &[ask(
    901,
    "Is `before` eleven fields, each ended by `|`, and `after` 7 to 20, each begun by one, \
     all well-formed UTF-8 without CR or LF?",
)];

const STORE: &[Question] = &[SOUND, LONG_ENOUGH];

const LOAD: &[Question] = &[
    ask(
        32,
        "Are the bytes a whole stored book of the newest form, and a sound one?",
    ),
    ask(30, "Is the book's memory long enough?"),
];

#[cfg(test)]
mod tests {
    use super::*;
    use std::collections::BTreeSet;

    const HEADER: &str = include_str!("../../../include/buntingraft.h");

    /// The numbered questions that stand in the header, as "10  Is ..?", each in
    /// one line or in several.
    fn header_questions() -> BTreeSet<String> {
        let mut numbered: Vec<String> = Vec::new();
        for line in HEADER.lines() {
            let line = line.trim_start_matches([' ', '*']);
            if line.starts_with(|first: char| first.is_ascii_digit()) {
                numbered.push(line.into());
            } else if let Some(begun) = numbered.last_mut().filter(|text| !text.ends_with('?')) {
                *begun += &format!(" {line}");
            }
        }
        numbered.retain(|text| text.ends_with('?'));
        numbered.into_iter().collect()
    }

    #[test]
    fn the_questions_are_those_of_the_header() {
        let questions = Call::ALL.iter().flat_map(|call| call.questions());
        let told: BTreeSet<String> = questions
            .map(|question| format!("{}  {}", question.number, question.text))
            .collect();
        assert_eq!(told, header_questions());
    }
}
