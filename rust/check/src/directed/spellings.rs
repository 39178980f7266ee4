//! One spelling per amount (document 02, A3): amounts and sums of every number
//! of digits with none to more leading zeros than fit, zero in every spelling,
//! and texts that are nearly money, all with their answers; every short text;
//! the numbers that keep their zeros; and the order of the questions.

use crate::breaks::{Break, BREAKS};
use crate::coverage::Coverage;
use crate::draft::Draft;
use crate::run::Run;
use reference::Answer::{self, Refused};

/// Tries every such text.
pub fn check(coverage: &mut Coverage) {
    let mut run = Run::begin("spellings".into(), 0, coverage);
    worked(&mut run);
    amounts(&mut run);
    sums(&mut run);
    zero(&mut run);
    short_texts(&mut run);
    counts(&mut run);
    not_judged(&mut run);
    questions(&mut run);
}

/// The answer that a file of so many orders is accepted with.
fn accepted(orders: usize, faulty: u64) -> Answer {
    let orders = orders as u64;
    Answer::Accepted { orders, faulty }
}

/// The readings' own texts and their neighbours, each with the numbers that ZS1
/// is refused with where it is the sum and where it is an amount: 132 where it
/// reads.
const WORKED: [(&str, u32, u32); 34] = [
    ("0.00", 131, 902),
    ("00.00", 130, 902),
    (".00", 130, 902),
    ("0.01", 132, 132),
    ("00.01", 130, 902),
    ("0.50", 132, 132),
    ("00.50", 130, 902),
    (".50", 130, 902),
    ("1.00", 132, 132),
    ("01.00", 130, 902),
    ("7.50", 132, 132),
    ("07.50", 130, 902),
    ("007.50", 130, 902),
    ("70.50", 132, 132),
    ("070.50", 130, 902),
    ("0175.50", 130, 902),
    ("00175.50", 130, 902),
    ("175.5", 130, 902),
    ("0175.5", 130, 902),
    ("17550", 130, 902),
    ("017550", 130, 902),
    ("9999999.99", 132, 132),
    ("09999999.99", 130, 902),
    ("10000000.00", 132, 902),
    ("010000000.00", 130, 902),
    ("99999999999.99", 132, 902),
    ("099999999999.99", 130, 902),
    ("100000000000.00", 130, 902),
    ("0100000000000.00", 130, 902),
    ("", 130, 902),
    ("0", 130, 902),
    ("00", 130, 902),
    ("0.", 130, 902),
    ("0.0", 130, 902),
];

/// Each of these as the sum, and as the amount of each order.
fn worked(run: &mut Run) {
    for (text, sum, amount) in WORKED {
        let file = Draft::zs1().with_header(12, text);
        run.expect_aside(&file.intake(), Refused(sum));
        for order in 1..=3 {
            let file = Draft::zs1().with_field(order, 3, text);
            run.expect_aside(&file.intake(), Refused(amount));
        }
    }
}

/// Amounts of every number of digits, in grosze and as text.
const AMOUNTS: [(u64, &str); 13] = [
    (1, "0.01"),
    (10, "0.10"),
    (99, "0.99"),
    (100, "1.00"),
    (750, "7.50"),
    (1_000, "10.00"),
    (12_345, "123.45"),
    (100_000, "1000.00"),
    (1_000_005, "10000.05"),
    (10_000_000, "100000.00"),
    (99_999_999, "999999.99"),
    (100_000_000, "1000000.00"),
    (999_999_999, "9999999.99"),
];

/// Sums that are larger: of so many orders of 9999999.99.
const LARGER_SUMS: [(usize, &str); 5] = [
    (2, "19999999.98"),
    (11, "109999999.89"),
    (101, "1009999998.99"),
    (1_001, "10009999989.99"),
    (2_048, "20479999979.52"),
];

/// The text with leading zeros, from one to so many that there are two digits
/// more than `most` before the point.
fn with_zeros(text: &str, most: usize) -> Vec<String> {
    let digits = text.len() - ".00".len();
    let zeros = 1..=most + 2 - digits;
    zeros.map(|zeros| "0".repeat(zeros) + text).collect()
}

/// Texts that are nearly this one, and no money: with something else than digits
/// before it, with more behind it, with another point or none, and cut off.
fn nearly(text: &str) -> Vec<String> {
    let before = [
        "+", "-", " ", "O", ".", "0.", "0 ", "\0", "\u{FF10}", "\u{661}",
    ];
    let before = before.map(|before| format!("{before}{text}"));
    let behind = ["0", "00", ".", ".00", " ", ",", "O"].map(|behind| format!("{text}{behind}"));
    let points = ["", ",", "..", " ", "\u{B7}"].map(|point| text.replace('.', point));
    let cut = [1, 2, 3].map(|bytes| text[..text.len() - bytes].into());
    [&before[..], &behind[..], &points[..], &cut[..]].concat()
}

/// Each amount in each of three orders: as it must be spelt, with leading zeros,
/// and nearly so.
fn amounts(run: &mut Run) {
    for (amount, text) in AMOUNTS {
        for order in 1..=3 {
            let mut amounts = [100; 3];
            amounts[order - 1] = amount;
            let file = Draft::new("ZS1", &amounts);
            let spelt = |text: &str| file.clone().with_field(order, 3, text).intake();
            run.expect_aside(&spelt(text), accepted(3, 0));
            for text in with_zeros(text, 7).iter().chain(&nearly(text)) {
                run.expect_aside(&spelt(text), Refused(902));
            }
        }
    }
}

/// Each amount as the sum of a file of one order, and each larger sum, likewise.
fn sums(run: &mut Run) {
    let one = AMOUNTS.map(|(amount, text)| (vec![amount], text));
    let several = LARGER_SUMS.map(|(orders, text)| (vec![999_999_999; orders], text));
    for (amounts, text) in one.into_iter().chain(several) {
        let file = Draft::new("ZS1", &amounts);
        let spelt = |text: &str| file.clone().with_header(12, text).intake();
        run.expect_aside(&spelt(text), accepted(amounts.len(), 0));
        for text in with_zeros(text, 11).iter().chain(&nearly(text)) {
            run.expect_aside(&spelt(text), Refused(130));
        }
    }
}

/// Zero with no digit to thirteen before the point: a sum of zero with one alone,
/// and never an amount that an order may have.
fn zero(run: &mut Run) {
    for zeros in 0..=13 {
        let text = "0".repeat(zeros) + ".00";
        let number = if zeros == 1 { 131 } else { 130 };
        let file = Draft::zs1().with_header(12, &text);
        run.expect_aside(&file.intake(), Refused(number));
        for order in 1..=3 {
            let file = Draft::zs1().with_field(order, 3, &text);
            run.expect_aside(&file.intake(), Refused(902));
        }
    }
}

/// The length of the longest of the short texts.
const SHORT: usize = 8;

/// Every text of zeros, sevens and points up to that length, as the sum and as an
/// amount.
fn short_texts(run: &mut Run) {
    let mut texts = vec![String::new()];
    for _ in 0..SHORT {
        let longer = |text: &String| ["0", "7", "."].map(|byte| format!("{text}{byte}"));
        texts = texts.iter().flat_map(longer).collect();
        for text in &texts {
            run.attempt(&[
                Draft::zs1().with_header(12, text).intake(),
                Draft::zs1().with_field(1, 3, text).intake(),
            ]);
        }
    }
}

/// The count and the records' numbers, which keep their zeros up to six digits:
/// a count of zero is then 127, longer ones are 126 and 901.
fn counts(run: &mut Run) {
    for zeros in 0..=7 {
        let fits = zeros < 6;
        let zeros = "0".repeat(zeros);
        let unless_long = |fit: Answer, long: u32| if fits { fit } else { Refused(long) };
        let file = Draft::zs1().with_header(11, &format!("{zeros}3"));
        run.expect_aside(&file.intake(), unless_long(accepted(3, 1), 126));
        let file = Draft::zs1().with_header(11, &format!("{zeros}0"));
        run.expect_aside(&file.intake(), unless_long(Refused(127), 126));
        for order in 1..=3 {
            let file = Draft::zs1().with_field(order, 2, &format!("{zeros}{order}"));
            run.expect_aside(&file.intake(), unless_long(accepted(3, 1), 901));
        }
    }
}

/// Income, tax and health (fields 16 to 18), which no question asks how they are
/// spelt.
fn not_judged(run: &mut Run) {
    for text in ["0.00", "00.00", "007.50", "7.5", "0"] {
        for field in 16..=18 {
            let file = Draft::zs1().with_field(1, field, text);
            run.expect_aside(&file.intake(), accepted(3, 1));
        }
    }
}

/// A leading zero in the sum and in an amount, with the question that it breaks.
const SPELT: [(u64, Break); 2] = [
    (130, |draft| draft.header[11].insert(0, '0')),
    (902, |draft| draft.records[0][2].insert(0, '0')),
];

/// Each of these together with each other question broken, where the earlier one
/// must answer.
fn questions(run: &mut Run) {
    let questions = buntingraft::Call::Intake.questions();
    for (number, spell) in SPELT {
        for (other, break_it) in BREAKS {
            let mut draft = Draft::zs1();
            break_it(&mut draft);
            spell(&mut draft);
            let mut numbers = questions.iter().map(|question| question.number);
            let first = numbers.find(|asked| [number, *other].contains(asked));
            let first = first.expect("both are questions of an intake");
            run.expect_aside(&draft.intake(), Refused(first as u32));
        }
    }
}
