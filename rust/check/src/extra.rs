//! Records cut around their extra address field (document 02, A7): both judge the
//! field, and then the record without it. Where the record was taken in, its fault is
//! the one that the intake gave it. Also what is cut at random.

use crate::coverage::Coverage;
use crate::lent::number_in_table;
use crate::numbers::Numbers;
use crate::orders::{some_record, spoil_byte};
use crate::telling::{end_with, text};
use buntingraft::{judge_around_by_bits, Call};
use reference::{Answer, Book, ExtraSaid, State};

/// What is answered to a record without its extra field: its fault, if it has one,
/// or the number of a refusal.
pub type Judged = Result<Option<u8>, u32>;

/// How many records are cut at random.
const CUTS: usize = 300_000;

/// Judges records that a seed draws, most of them cut or said otherwise than they
/// are.
pub fn check(seed: u64, coverage: &mut Coverage) {
    let mut numbers = Numbers::of(seed.rotate_left(40), 0);
    for _ in 0..CUTS {
        let record = some_record(&mut numbers).join("|");
        let cut = Cut::around(record.as_bytes());
        cut.judged(coverage).expect("it is a record");
        let (bits, before, after) = otherwise(cut, &mut numbers);
        let _ = around(bits, &before, &after, coverage);
    }
}

/// A record, cut around its extra field.
#[derive(Clone, Copy)]
pub struct Cut<'a> {
    /// What stands before the field, with the bar next to it.
    pub before: &'a [u8],
    /// The field.
    pub extra: &'a [u8],
    /// What stands behind it, with the bar next to it.
    pub after: &'a [u8],
}

impl Cut<'_> {
    /// A line cut behind its eleventh bar and before its twelfth, or at its end where
    /// it has fewer.
    pub fn around(line: &[u8]) -> Cut<'_> {
        let places = 0..line.len();
        let mut bars = places.filter(|place| line[*place] == b'|').skip(10);
        let eleventh = bars.next().map_or(line.len(), |bar| bar + 1);
        let twelfth = bars.next().unwrap_or(line.len());
        Cut {
            before: &line[..eleventh],
            extra: &line[eleventh..twelfth],
            after: &line[twelfth..],
        }
    }

    /// What both answer to it.
    pub fn judged(self, coverage: &mut Coverage) -> Judged {
        let bits = said(self.extra, coverage);
        around(bits, self.before, self.after, coverage)
    }
}

/// The bits by which both judge an extra field. A difference ends the program.
pub fn said(extra: &[u8], coverage: &mut Coverage) -> u64 {
    let archive = buntingraft::judge_extra(extra).bits();
    let reference = reference::judge_extra(extra).bits();
    if archive != reference {
        end_with(&format!(
            "{} \"{}\" -> ?\narchive {archive}, reference {reference}",
            Call::JudgeExtra,
            text(extra)
        ));
    }
    coverage.note_extra(archive);
    archive
}

/// What both answer to a record without its extra field, of which these bits are
/// said. A difference ends the program.
pub fn around(bits: u64, before: &[u8], after: &[u8], coverage: &mut Coverage) -> Judged {
    match compared(bits, before, after) {
        Ok(judged) => {
            coverage.note_around(bits, &judged);
            judged
        }
        Err(difference) => {
            let told = told(bits, before, after);
            end_with(&format!("{told} -> ?\n{difference}"))
        }
    }
}

/// It in one line.
fn told(bits: u64, before: &[u8], after: &[u8]) -> String {
    let (call, before, after) = (Call::JudgeAround, text(before), text(after));
    format!("{call} {bits} \"{before}\" \"{after}\"")
}

/// What both answer, or the difference.
fn compared(bits: u64, before: &[u8], after: &[u8]) -> Result<Judged, String> {
    let archive = match judge_around_by_bits(bits, before, after) {
        Ok(fault) => Ok(fault),
        Err(refusal) => Err(number_in_table(Call::JudgeAround, refusal)?),
    };
    let reference = reference::judge_around(ExtraSaid::from_bits(bits), before, after);
    if archive != reference.map(|fault| fault.map(u64::from)) {
        return Err(format!("archive {archive:?}, reference {reference:?}"));
    }
    Ok(reference)
}

/// Judges each record of a file that a call brought, whatever was answered; where the
/// file was taken in, its orders have these faults.
pub fn records(
    call: &reference::Call,
    answer: &Answer,
    after: Option<&Book>,
    coverage: &mut Coverage,
) {
    let reference::Call::Intake { file, .. } = call else {
        return;
    };
    let lines = lines(file);
    let judged: Vec<Judged> = lines
        .iter()
        .map(|line| Cut::around(line).judged(coverage))
        .collect();
    if let Answer::Accepted { .. } = answer {
        let taken_in = faults(after);
        if judged != taken_in {
            end_with(&format!(
                "\"{}\"\nis taken in with the faults {taken_in:?}\nand judged with {judged:?}",
                text(file)
            ));
        }
    }
}

/// The lines of a file behind its header. (Where it has a stray CR or LF it is refused,
/// and where these part its lines does not matter.)
fn lines(file: &[u8]) -> Vec<&[u8]> {
    let file = file.strip_suffix(b"\r\n").unwrap_or(file);
    let lines = file.split(|byte| *byte == b'\n').skip(1);
    let lines = lines.map(|line| line.strip_suffix(b"\r").unwrap_or(line));
    lines.collect()
}

/// The faults of the orders that came into a book last.
fn faults(book: Option<&Book>) -> Vec<Judged> {
    let newest = book.and_then(|book| book.shipments.last());
    let rows = newest.iter().flat_map(|shipment| &shipment.rows);
    let fault = |state| match state {
        State::Faulty { fault, .. } => Ok(Some(fault)),
        _ => Ok(None),
    };
    rows.map(|row| fault(row.state)).collect()
}

/// Bytes that are not UTF-8, alone or among others.
const NO_TEXT: [&[u8]; 7] = [
    b"\x80",
    b"\xC5",
    b"\xFF",
    b"\xC0\x80",
    b"\xED\xA0\x80",
    b"\xE2\x82",
    b"\xF4\x90\x80\x80",
];

/// A record with other bits than its extra field has, or with something else before
/// the field or behind it, which may be wrong or not.
fn otherwise(cut: Cut, numbers: &mut Numbers) -> (u64, Vec<u8>, Vec<u8>) {
    let mut bits = reference::judge_extra(cut.extra).bits();
    if !numbers.one_in(3) {
        let any = numbers.any();
        bits = numbers.pick(&[any % 16, any, u64::MAX]);
    }
    let mut texts = [cut.before.to_vec(), cut.after.to_vec()];
    if numbers.one_in(16) {
        texts.swap(0, 1);
    }
    for _ in 0..numbers.below(3) {
        change(&mut texts[numbers.below(2)], numbers);
    }
    let [before, after] = texts;
    (bits, before, after)
}

/// Changes a text: a bar more or fewer, none or something else at either end, CR or
/// LF or bytes that are no text in it, more fields, any byte, or nothing left.
fn change(text: &mut Vec<u8>, numbers: &mut Numbers) {
    let place = numbers.below(text.len() + 1);
    match numbers.below(8) {
        0 => text.insert(place, b'|'),
        1 => remove_bar(text, numbers),
        2 if !text.is_empty() => {
            let end = numbers.pick(&[0, text.len() - 1]);
            text.remove(end);
        }
        3 => {
            let end = numbers.pick(&[0, text.len()]);
            text.insert(end, numbers.pick(b"x |\r\n"));
        }
        4 => text.insert(place, numbers.pick(b"\r\n")),
        5 => drop(text.splice(place..place, numbers.pick(&NO_TEXT).iter().copied())),
        6 => text.extend(vec![b'|'; numbers.below(16)]),
        7 if numbers.one_in(4) => text.clear(),
        _ => spoil_byte(text, numbers),
    }
}

/// Takes one of the bars out, if there is one.
fn remove_bar(text: &mut Vec<u8>, numbers: &mut Numbers) {
    let places = 0..text.len();
    let bars: Vec<usize> = places.filter(|place| text[*place] == b'|').collect();
    if !bars.is_empty() {
        text.remove(numbers.pick(&bars));
    }
}
