//! What was covered of report files: of what those were that were written, and
//! which faults stood in them.

use crate::report::{faults, Kind, Report};
use reference::{Book, Money, Shipment, Stage, State};
use std::collections::BTreeMap;

/// What a report that was written is of.
#[derive(Clone, Copy, Debug, PartialEq, Eq, PartialOrd, Ord)]
enum Subject {
    /// An RKF, of an accepted file.
    Accepted,
    /// An RKF, of a refused file.
    Refused,
    /// An OPE, of faulty orders while Waiting.
    Waiting,
    /// An OPE, of faulty orders while Paired, all of whose money waits.
    Paired,
    /// An OPE, of faulty orders of which some money went back by OPR.
    Returned,
    /// An OPE, of faulty orders when Closed.
    Closed,
    /// An OPE, of a shipment without faulty orders.
    Faultless,
}

impl Subject {
    /// All of them.
    const ALL: [Subject; 7] = [
        Subject::Accepted,
        Subject::Refused,
        Subject::Waiting,
        Subject::Paired,
        Subject::Returned,
        Subject::Closed,
        Subject::Faultless,
    ];

    /// What the OPE of a shipment is of.
    fn of(shipment: &Shipment) -> Subject {
        match shipment.stage {
            _ if !shipment.has_faults() => Subject::Faultless,
            Stage::Waiting => Subject::Waiting,
            Stage::Closed => Subject::Closed,
            Stage::Paired if shipment.rows.iter().any(|row| went_back(row.state)) => {
                Subject::Returned
            }
            Stage::Paired => Subject::Paired,
        }
    }
}

/// Is it the state of a faulty order of which some money went back?
fn went_back(state: State) -> bool {
    let waits = state.waits(Money::K) && state.waits(Money::O);
    matches!(state, State::Faulty { .. }) && !waits
}

/// Counts of the reports that were written.
#[derive(Default)]
pub struct Reported {
    subjects: BTreeMap<Subject, u64>,
    faults: [u64; 11],
}

impl Reported {
    /// Counts a report that was written, an OPE of this book.
    pub fn note(&mut self, report: &Report, book: Option<&Book>) {
        let subject = match report.kind {
            Kind::Rkf(0) => Some(Subject::Accepted),
            Kind::Rkf(_) => Some(Subject::Refused),
            Kind::Ope(_) => {
                for (_, fault) in faults(book, &report.source) {
                    self.faults[usize::from(fault)] += 1;
                }
                let shipment = book.and_then(|book| book.shipment(&report.source));
                shipment.map(Subject::of)
            }
        };
        if let Some(subject) = subject {
            *self.subjects.entry(subject).or_default() += 1;
        }
    }

    /// What can be written and never was.
    pub fn missing(&self) -> Vec<String> {
        let subjects = Subject::ALL.iter();
        let unmet = subjects.filter(|subject| !self.subjects.contains_key(subject));
        let mut missing: Vec<String> = unmet.map(|subject| format!("report {subject:?}")).collect();
        for fault in (1..=10).filter(|fault| self.faults[*fault] == 0) {
            missing.push(format!("fault {fault} in an OPE"));
        }
        missing
    }

    /// The counts by subject and by fault.
    pub fn cells(&self) -> [Vec<String>; 2] {
        let count = |subject| self.subjects.get(subject).unwrap_or(&0);
        let subjects = Subject::ALL.iter();
        let faults = self.faults.iter().enumerate().skip(1);
        [
            subjects
                .map(|subject| format!("{subject:?}: {}", count(subject)))
                .collect(),
            faults
                .map(|(fault, count)| format!("{fault}: {count}"))
                .collect(),
        ]
    }
}
