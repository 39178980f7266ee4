//! A report file written of lent memory into an output between guards, and held
//! to the reference's: the answer, the bytes written, and that nothing else was
//! touched. What was written is also read back.

use crate::lent::Lent;
use crate::output::{self, Written};
use crate::reading::{read, Values};
use crate::telling::text;
use reference::{Book, Row, State};
use std::fmt;

/// A report file that is asked for, with all that is passed for it besides the
/// book and the output.
#[derive(Clone, Debug)]
pub struct Report {
    /// Its own identifier.
    pub own: Vec<u8>,
    /// When it was created, as yyyymmddhhmmss.
    pub created: u64,
    /// The identifier of the order file, or of its shipment, that it is on.
    pub source: Vec<u8>,
    /// Which of the two files it is.
    pub kind: Kind,
}

/// The two report files, with what each takes alone.
#[derive(Clone, Debug)]
pub enum Kind {
    /// On an order file: the number that it was refused with, or 0.
    Rkf(u64),
    /// On a shipment's faulty orders: the codes of the faults.
    Ope(Vec<u64>),
}

impl Report {
    /// Which of the archive's calls this is.
    pub fn call(&self) -> buntingraft::Call {
        match self.kind {
            Kind::Rkf(_) => buntingraft::Call::WriteRkf,
            Kind::Ope(_) => buntingraft::Call::WriteOpe,
        }
    }

    /// It with the length of its output, in one line.
    pub fn told(&self, length: usize) -> String {
        format!("{self}, in {length} bytes")
    }

    /// The whole file by the reference, before the output is looked at. An OPE
    /// without a book is refused with 10.
    pub fn file(&self, book: Option<&Book>) -> Written {
        let (own, created, source) = (&self.own, self.created, &self.source);
        match &self.kind {
            Kind::Rkf(refusal) => reference::rkf(own, created, source, *refusal),
            Kind::Ope(codes) => book.ok_or(10u32)?.ope(source, own, created, codes),
        }
    }

    /// Writes it into an output by the reference.
    fn by_reference(&self, book: Option<&Book>, output: &mut [u8]) -> Result<usize, u32> {
        let (own, created, source) = (&self.own, self.created, &self.source);
        match &self.kind {
            Kind::Rkf(refusal) => reference::rkf_into(own, created, source, *refusal, output),
            Kind::Ope(codes) => {
                let book = book.ok_or(10u32)?;
                book.ope_into(source, own, created, codes, output)
            }
        }
    }

    /// The values that were put into its file, where it was written: those
    /// passed, and of an OPE those of the book.
    fn values(&self, book: Option<&Book>) -> Values {
        let (code, last, records) = match &self.kind {
            Kind::Rkf(0) => ("RKF", 1, Vec::new()),
            Kind::Rkf(refusal) => ("RKF", 0, vec![[1, 0, *refusal]]),
            Kind::Ope(codes) => {
                let faults = faults(book, &self.source);
                let code = |fault: u8| codes[usize::from(fault) - 1];
                let records = (1..).zip(&faults);
                let records =
                    records.map(|(running, (order, fault))| [running, *order, code(*fault)]);
                ("OPE", faults.len() as u64, records.collect())
            }
        };
        Values {
            code: code.into(),
            own: self.own.clone(),
            created: self.created,
            source: self.source.clone(),
            last,
            records,
        }
    }
}

/// The numbers of the faulty orders of a shipment, rising, each with its fault.
pub fn faults(book: Option<&Book>, identifier: &[u8]) -> Vec<(u64, u8)> {
    let shipment = book.and_then(|book| book.shipment(identifier));
    let rows = shipment.iter().flat_map(|shipment| &shipment.rows);
    let fault = |(order, row): (u64, &Row)| match row.state {
        State::Faulty { fault, .. } => Some((order, fault)),
        _ => None,
    };
    (1..).zip(rows).filter_map(fault).collect()
}

impl fmt::Display for Report {
    fn fmt(&self, f: &mut fmt::Formatter<'_>) -> fmt::Result {
        let (call, created) = (self.call(), self.created);
        let [own, source] = [&self.own, &self.source].map(|bytes| text(bytes));
        write!(f, "{call} \"{own}\" of {created} on \"{source}\", ")?;
        match &self.kind {
            Kind::Rkf(refusal) => write!(f, "refusal {refusal}"),
            Kind::Ope(codes) => write!(f, "codes {codes:?}"),
        }
    }
}

/// Writes a report of lent memory that must hold this book into an output of so
/// many bytes, and gives what it answers, or the difference.
pub fn write(
    lent: &mut Lent,
    book: Option<&Book>,
    report: &Report,
    length: usize,
) -> Result<Written, String> {
    let archive = |output: &mut [u8]| lent.report(report, output);
    let reference = |output: &mut [u8]| report.by_reference(book, output);
    let written = output::write(length, archive, reference)?;
    if let Ok(file) = &written {
        read_back(file, &report.values(book))?;
    }
    Ok(written)
}

/// Are the values in a written file those that were put in?
fn read_back(file: &[u8], values: &Values) -> Result<(), String> {
    let found = read(file);
    if found.as_ref() == Some(values) {
        return Ok(());
    }
    let file = text(file);
    Err(format!("{file} reads as {found:?}\nnot {values:?}"))
}
