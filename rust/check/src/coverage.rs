//! What was covered: how often each call gave each answer. The numbers expected
//! are the questions of the bindings' tables.

use crate::amounts::Found;
use crate::archive::kind;
use crate::extra::Judged;
use crate::judged::Counts;
use crate::naming::has_long_date;
use crate::output::Written;
use crate::report::Report;
use crate::reported::Reported;
use crate::sheet::Taken;
use buntingraft::{Call, NotReplayed};
use reference::{Answer, Book, Fee, Money, Route, State, Tariff, MOST_AMOUNT};
use std::collections::BTreeMap;
use std::fmt;

/// An answer without its sums.
#[derive(Clone, Copy, PartialEq, Eq, PartialOrd, Ord)]
enum Outcome {
    Done,
    Short,
    Refused(u64),
}

impl Outcome {
    /// The outcome that an answer tells of.
    fn of(answer: &Answer) -> Outcome {
        match answer {
            Answer::Refused(number) => Outcome::Refused(u64::from(*number)),
            Answer::Short { .. } => Outcome::Short,
            _ => Outcome::Done,
        }
    }
}

/// Something that a fee may be, by its shipment's tariff.
type OfFees = fn(Tariff, Fee) -> bool;

/// What the fee of an order taken in may be; one fee may be several.
const FEES: [(&str, OfFees); 5] = [
    ("Flat", |tariff, _| tariff.rate == 0),
    ("Whole", |tariff, fee| tariff.rate > 0 && fee.remainder == 0),
    ("Rest", |_, fee| fee.remainder > 0),
    ("Zero", |tariff, fee| tariff.rate > 0 && fee.fee == 0),
    ("Most", |tariff, fee| {
        tariff.rate > 0 && fee.fee == MOST_AMOUNT
    }),
];

/// Counts of what was compared.
#[derive(Default)]
pub struct Coverage {
    answers: BTreeMap<(Call, Outcome), u64>,
    long_titles: BTreeMap<Outcome, u64>,
    returns: BTreeMap<(u64, u64), u64>,
    faults: [u64; 11],
    fees: [u64; FEES.len()],
    amounts_found: u64,
    amounts_none: u64,
    judged: Counts,
    reported: Reported,
    replayed: u64,
    not_replayed: [u64; 3],
    /// Random lists.
    pub lists: u64,
    /// Calls that were made on copies alone, to probe a book.
    pub probes: u64,
    /// Pieces of memory that were too short or held something else than a book
    /// made by calls.
    pub memories: u64,
}

impl Coverage {
    /// Counts a call with its answer, and apart a transfer whose title has a
    /// long date; of an accepted intake the orders' faults and fees too, as they
    /// stand in the book after it.
    pub fn note(&mut self, call: &reference::Call, answer: &Answer, after: Option<&Book>) {
        self.note_answer(kind(call), answer);
        match (call, answer) {
            (reference::Call::Transfer { title, .. }, _) if has_long_date(title) => {
                *self.long_titles.entry(Outcome::of(answer)).or_default() += 1;
            }
            (reference::Call::Return { route, money, .. }, Answer::Returned { .. }) => {
                *self.returns.entry((*route, *money)).or_default() += 1;
            }
            (reference::Call::Intake { .. }, Answer::Accepted { .. }) => {
                let newest = after.and_then(|book| book.shipments.last());
                for row in newest.iter().flat_map(|shipment| &shipment.rows) {
                    if let State::Faulty { fault, .. } = row.state {
                        self.faults[usize::from(fault)] += 1;
                    }
                }
                if let Some(shipment) = newest {
                    let fees = shipment.rows.iter().map(|row| row.fee);
                    fees.for_each(|fee| self.note_fee(shipment.tariff, fee));
                }
            }
            _ => {}
        }
    }

    /// Counts a fee of an order that was taken in.
    fn note_fee(&mut self, tariff: Tariff, fee: Fee) {
        for (count, (_, is_so)) in self.fees.iter_mut().zip(FEES) {
            *count += u64::from(is_so(tariff, fee));
        }
    }

    /// Counts an answer of a kind of call.
    pub fn note_answer(&mut self, call: Call, answer: &Answer) {
        let outcome = Outcome::of(answer);
        *self.answers.entry((call, outcome)).or_default() += 1;
    }

    /// Counts a sheet.
    pub fn note_sheet(&mut self, taken: &Taken) {
        self.note_result(Call::Sheet, taken);
    }

    /// Counts a report, an OPE of this book; of one that was written also what
    /// stands in it.
    pub fn note_report(&mut self, report: &Report, book: Option<&Book>, written: &Written) {
        self.note_written(report.call(), written);
        if written.is_ok() {
            self.reported.note(report, book);
        }
    }

    /// Counts what a kind of writer answered.
    pub fn note_written(&mut self, call: Call, written: &Written) {
        self.note_result(call, written);
    }

    /// Counts an amount that was asked for, and apart whether there is one.
    pub fn note_amount(&mut self, found: &Found) {
        self.note_result(Call::AmountFor, found);
        match found {
            Ok(Some(_)) => self.amounts_found += 1,
            Ok(None) => self.amounts_none += 1,
            Err(_) => {}
        }
    }

    /// Counts an extra field that was judged, and apart the bits said of it.
    pub fn note_extra(&mut self, bits: u64) {
        self.note_answer(Call::JudgeExtra, &Answer::Done);
        self.judged.note_said(bits);
    }

    /// Counts a record that was judged without its extra field, and apart the bits
    /// passed and the fault.
    pub fn note_around(&mut self, bits: u64, judged: &Judged) {
        self.note_result(Call::JudgeAround, judged);
        self.judged.note_around(bits, judged);
    }

    /// Counts what a kind of call was done with, or the number of its refusal.
    fn note_result<T>(&mut self, call: Call, result: &Result<T, u32>) {
        let answer = match result {
            Ok(_) => Answer::Done,
            Err(number) => Answer::Refused(*number),
        };
        self.note_answer(call, &answer);
    }

    /// Counts a replay.
    pub fn note_replay(&mut self, made: &Result<usize, NotReplayed>) {
        match made {
            Ok(_) => self.replayed += 1,
            Err(NotReplayed::NotWhole) => self.not_replayed[0] += 1,
            Err(NotReplayed::TooFewPlaces) => self.not_replayed[1] += 1,
            Err(NotReplayed::NotEmpty) => self.not_replayed[2] += 1,
        }
    }

    /// How many calls were counted, or how many of one kind.
    fn calls(&self, kind: Option<Call>) -> u64 {
        let counted = self.answers.iter();
        counted
            .filter(|((call, _), _)| kind.is_none_or(|kind| *call == kind))
            .map(|(_, count)| count)
            .sum()
    }

    /// How often each number refused a call other than an intake.
    fn refused_but_at_intake(&self) -> BTreeMap<u64, u64> {
        let mut numbers = BTreeMap::new();
        for ((call, outcome), count) in &self.answers {
            if let (true, Outcome::Refused(number)) = (*call != Call::Intake, outcome) {
                *numbers.entry(*number).or_default() += count;
            }
        }
        numbers
    }

    /// How often a call gave an outcome.
    fn count(&self, call: Call, outcome: Outcome) -> u64 {
        *self.answers.get(&(call, outcome)).unwrap_or(&0)
    }

    /// The outcomes that a call can have.
    fn outcomes(call: Call) -> Vec<Outcome> {
        let mut outcomes = vec![Outcome::Done];
        if call == Call::Pair {
            outcomes.push(Outcome::Short);
        }
        let numbers = call.questions().iter().map(|question| question.number);
        outcomes.extend(numbers.map(Outcome::Refused));
        outcomes
    }

    /// The returns that can be done: each route with each money, but ZPR with
    /// O.
    fn ways() -> Vec<(u64, u64)> {
        let ways = (0..4).flat_map(|route| [(route, 0), (route, 1)]);
        ways.filter(|way| *way != (2, 1)).collect()
    }

    /// What can be answered and never was.
    pub fn missing(&self) -> Vec<String> {
        let mut missing = Vec::new();
        for call in Call::ALL {
            for outcome in Coverage::outcomes(call) {
                if self.count(call, outcome) == 0 {
                    missing.push(format!("{call} {outcome}"));
                }
            }
        }
        for outcome in Coverage::outcomes(Call::Transfer) {
            if !self.long_titles.contains_key(&outcome) {
                missing.push(format!("transfer, long title {outcome}"));
            }
        }
        for way in Coverage::ways() {
            if !self.returns.contains_key(&way) {
                missing.push(format!("return by {}", way_name(way)));
            }
        }
        for fault in (1..=10).filter(|fault| self.faults[*fault] == 0) {
            missing.push(format!("fault {fault}"));
        }
        for ((what, _), _) in FEES.iter().zip(self.fees).filter(|(_, count)| *count == 0) {
            missing.push(format!("fee {what}"));
        }
        for (what, _) in self.amounts().iter().filter(|(_, count)| *count == 0) {
            missing.push(format!("amount {what}"));
        }
        missing.extend(self.judged.missing());
        missing.extend(self.reported.missing());
        for reason in (1..=3).filter(|reason| self.not_replayed[reason - 1] == 0) {
            missing.push(format!("journal not replayed for {reason}"));
        }
        missing
    }

    /// How often there was an amount that makes a total, and how often none.
    fn amounts(&self) -> [(&'static str, u64); 2] {
        [("Found", self.amounts_found), ("None", self.amounts_none)]
    }

    /// The rows below those of the calls: what was counted apart.
    fn rows(&self) -> Vec<(&'static str, Vec<String>)> {
        let long = |outcome: &Outcome| self.long_titles.get(outcome).unwrap_or(&0);
        let long_titles = Coverage::outcomes(Call::Transfer);
        let long_titles = long_titles
            .iter()
            .map(|outcome| format!("{outcome}: {}", long(outcome)));
        let refused = self.refused_but_at_intake().into_iter();
        let refused = refused.map(|(number, count)| format!("{number}: {count}"));
        let done = |way: &(u64, u64)| self.returns.get(way).unwrap_or(&0);
        let returns = Coverage::ways().into_iter();
        let returns = returns.map(|way| format!("{}: {}", way_name(way), done(&way)));
        let faults = self.faults.iter().enumerate().skip(1);
        let faults = faults.map(|(fault, count)| format!("{fault}: {count}"));
        let fees = FEES.iter().zip(self.fees);
        let fees = fees.map(|((what, _), count)| format!("{what}: {count}"));
        let amounts = self.amounts().into_iter();
        let amounts = amounts.map(|(what, count)| format!("{what}: {count}"));
        let [said, bits, faults_around] = self.judged.cells();
        let [subjects, faults_reported] = self.reported.cells();
        let reasons = self.not_replayed.iter().zip(1..);
        let reasons = reasons.map(|(count, reason)| format!("not {reason}: {count}"));
        let replayed = std::iter::once(format!("done: {}", self.replayed));
        vec![
            ("long titles", long_titles.collect()),
            ("all but intake", refused.collect()),
            ("returns done", returns.collect()),
            ("faults", faults.collect()),
            ("fees", fees.collect()),
            ("amounts", amounts.collect()),
            ("extras said", said),
            ("bits around", bits),
            ("faults around", faults_around),
            ("reports written", subjects),
            ("faults in an OPE", faults_reported),
            ("journals", replayed.chain(reasons).collect()),
        ]
    }
}

/// A route and a money by their names.
fn way_name((route, money): (u64, u64)) -> String {
    match (Route::from_number(route), Money::from_number(money)) {
        (Some(route), Some(money)) => format!("{route:?} {money:?}").to_uppercase(),
        _ => format!("{route} {money}"),
    }
}

impl fmt::Display for Outcome {
    fn fmt(&self, f: &mut fmt::Formatter<'_>) -> fmt::Result {
        match self {
            Outcome::Done => f.write_str("done"),
            Outcome::Short => f.write_str("short"),
            Outcome::Refused(number) => write!(f, "{number}"),
        }
    }
}

impl fmt::Display for Coverage {
    fn fmt(&self, f: &mut fmt::Formatter<'_>) -> fmt::Result {
        let calls = self.calls(None);
        let of = |kind| self.calls(Some(kind));
        let (files, sheets) = (of(Call::Intake), of(Call::Sheet));
        let reports = of(Call::WriteRkf) + of(Call::WriteOpe);
        let (texts, amounts) = (of(Call::WriteMoney), of(Call::AmountFor));
        let (extras, around) = (of(Call::JudgeExtra), of(Call::JudgeAround));
        let (stores, loads) = (of(Call::Store), of(Call::Load));
        writeln!(
            f,
            "{calls} calls, {files} of them files, {sheets} sheets, {reports} reports, \
             {texts} texts of money, {amounts} amounts for a total, {extras} extra fields, \
             {around} records around them, {stores} stores, {loads} loads"
        )?;
        writeln!(f, "{} random lists, {} probes", self.lists, self.probes)?;
        writeln!(f, "{} pieces of memory that no calls made", self.memories)?;
        for call in Call::ALL {
            let cell = |outcome: &Outcome| format!("{outcome}: {}", self.count(call, *outcome));
            let outcomes = Coverage::outcomes(call);
            write_row(f, &call.to_string(), outcomes.iter().map(cell).collect())?;
        }
        let mut rows = self.rows().into_iter();
        rows.try_for_each(|(title, cells)| write_row(f, title, cells))
    }
}

/// Writes a row of the table: its title, and its cells in lines of six.
fn write_row(f: &mut fmt::Formatter<'_>, title: &str, cells: Vec<String>) -> fmt::Result {
    let cells: Vec<String> = cells.iter().map(|cell| format!("{cell:<15} ")).collect();
    for (line, cells) in cells.chunks(6).enumerate() {
        let title = if line == 0 { title } else { "" };
        writeln!(f, "  {title:<18}{}", cells.concat().trim_end())?;
    }
    Ok(())
}
