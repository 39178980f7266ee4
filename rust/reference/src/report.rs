//! "Report files RKF and OPE" (document 02, A2): "The insurer takes our verdict
//! only as its two report files." Their layouts are document 003's, sections
//! 5.3.3.1 and 5.4.3.1. All words quoted here are document 02's, but where 003
//! is named.

use crate::book::{Book, State};
use crate::calendar::{is_real_date, is_time_of_day};
use crate::output::write_to;
use crate::text::is_identifier;

/// "byte mark" (003, 3.3: EF BB BF)
const MARK: &[u8] = b"\xEF\xBB\xBF";

/// The report on one order file: `source` is its identifier, `refusal` the
/// number that intake refused it with, or 0 where it was accepted. Gives the
/// whole file, or 31; "30 [...] asked last" is for [`rkf_into`].
pub fn rkf(own: &[u8], created: u64, source: &[u8], refusal: u64) -> Result<Vec<u8>, u32> {
    // "31 when a code or value is missing or can't stand in its field"
    if !is_identifier(own) || !is_created(created) || !is_identifier(source) {
        return Err(31);
    }
    // "RKF has result 1 and no record,"
    if refusal == 0 {
        return Ok(file(&[header("RKF", own, created, source, 1)]));
    }
    // "codes outside 100 to 307 don't go into it."
    if !(100..=307).contains(&refusal) {
        return Err(31);
    }
    // "or result 0 and one record with running number 1, record number 0 and
    // the code"
    let header = header("RKF", own, created, source, 0);
    Ok(file(&[header, record(1, 0, refusal)]))
}

/// [`rkf`] into a lent output: gives the length written, or 31 or 30.
pub fn rkf_into(
    own: &[u8],
    created: u64,
    source: &[u8],
    refusal: u64,
    output: &mut [u8],
) -> Result<usize, u32> {
    write_to(output, &rkf(own, created, source, refusal)?)
}

impl Book {
    /// The report on the faulty orders of the shipment with this identifier;
    /// `codes` is the lent table. Gives the whole file, or 10, 13 or 31.
    pub fn ope(
        &self,
        identifier: &[u8],
        own: &[u8],
        created: u64,
        codes: &[u64],
    ) -> Result<Vec<u8>, u32> {
        // "OPE asks 10 and 13 first"
        if !self.is_sound() {
            return Err(10);
        }
        let shipment = self.shipment(identifier).ok_or(13u32)?;
        // "31 when a code or value is missing or can't stand in its field,
        // asked just before." (The codes are asked as their records are made.)
        if !is_identifier(own) || !is_created(created) {
            return Err(31);
        }
        // "and has one record per faulty order, rising, with the published
        // code"; the state alone decides, whatever still waits.
        let mut records = Vec::new();
        for (order, row) in (1..).zip(&shipment.rows) {
            if let State::Faulty { fault, .. } = row.state {
                let running = records.len() as u64 + 1;
                records.push(record(running, order, code_for(fault, codes)?));
            }
        }
        let source = &shipment.name.identifier;
        let header = header("OPE", own, created, source, records.len() as u64);
        Ok(file(&[vec![header], records].concat()))
    }

    /// [`Book::ope`] into a lent output: gives the length written, or 10, 13,
    /// 31 or 30.
    pub fn ope_into(
        &self,
        identifier: &[u8],
        own: &[u8],
        created: u64,
        codes: &[u64],
        output: &mut [u8],
    ) -> Result<usize, u32> {
        write_to(output, &self.ope(identifier, own, created, codes)?)
    }
}

/// "the published code, 308 to 336, taken from a lent table of ten codes, one
/// per fault; only codes used are judged."
fn code_for(fault: u8, codes: &[u64]) -> Result<u64, u32> {
    match codes.get(usize::from(fault) - 1) {
        Some(code) if (308..=336).contains(code) => Ok(*code),
        _ => Err(31),
    }
}

/// "a creation time is any real date and time as in document 01", as the number
/// yyyymmddhhmmss.
fn is_created(created: u64) -> bool {
    is_real_date(created / 1_000_000) && is_time_of_day(created % 1_000_000)
}

/// The header, which both files have but for the code of the file and the last
/// field: the result of an RKF, the number of rejected orders of an OPE. The
/// years 2000 to 2099 give a creation time its 14 digits.
fn header(code: &str, own: &[u8], created: u64, source: &[u8], last: u64) -> Vec<u8> {
    line(&[
        b"1",
        b"PP",
        code.as_bytes(),
        b"1.0",
        own,
        &number(created),
        b"EPE",
        source,
        &number(last),
    ])
}

/// A record, which both files have: its running number, the number of the
/// record or order that it is about, and the code.
fn record(running: u64, about: u64, code: u64) -> Vec<u8> {
    line(&[b"2", &number(running), &number(about), &number(code)])
}

/// "Counts and numbers have no leading zeros"
fn number(value: u64) -> Vec<u8> {
    value.to_string().into_bytes()
}

/// Fields joined by `|`, "na końcu linii separator pól nie występuje" (003,
/// 3.3).
fn line(fields: &[&[u8]]) -> Vec<u8> {
    fields.join(&b'|')
}

/// "Write both whole, with byte mark, header and records [...] and no CR LF
/// after the last line."
fn file(lines: &[Vec<u8>]) -> Vec<u8> {
    [MARK, &lines.join(&b"\r\n"[..])].concat()
}
