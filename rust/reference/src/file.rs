//! The file: its profile, its lines and fields, and the questions it is asked.
//!
//! The questions stand in document 01's order. Three of that list are the
//! book's own and are asked by [`crate::book`]: 900 (before 001), 101 (between
//! 023 and 102), 903 and 904 (after 132). So the file's questions come in two
//! parts, [`open`] up to 023 and [`Opened::judge_rest`] from 102. Document 02's
//! A5 adds 907 after 905 and 906 after 132.

use crate::calendar::{is_real_date, is_time_of_day, is_within};
use crate::extra::{judge_extra, ExtraSaid};
use crate::fee::{Fee, Tariff};
use crate::name::{read_name, Name};
use crate::text::{are_digits, is_digit, is_letter, number, read_amount, read_sum};
use crate::{MOST_AMOUNT, MOST_RATE};

/// "A profile carries today [...], five fees by benefit kind 0 to 4, [...] and
/// R, the number of fields in a record line". By document 02, "the profile gives
/// both per benefit kind", flat part and rate.
#[derive(Clone, Debug, PartialEq, Eq)]
pub struct Profile {
    /// Today, as the number yyyymmdd.
    pub today: u64,
    /// The flat part of each benefit kind, in grosze.
    pub flat: [u64; 5],
    /// R, the number of fields in a record line.
    pub fields: u64,
    /// The rate of each benefit kind, in ten-thousandths.
    pub rates: [u64; 5],
}

impl Profile {
    /// Flat part and rate of a benefit kind.
    pub fn tariff(&self, kind: u8) -> Tariff {
        Tariff {
            flat: self.flat[usize::from(kind)],
            rate: self.rates[usize::from(kind)],
        }
    }
}

/// One order as the file states it.
#[derive(Clone, Debug, PartialEq, Eq)]
pub struct Order {
    /// Its amount in grosze.
    pub amount: u64,
    /// Its fee, and the division's remainder.
    pub fee: Fee,
    /// Its first fault, 1 to 10, if it has one.
    pub fault: Option<u8>,
}

/// What an accepted file states.
#[derive(Clone, Debug, PartialEq, Eq)]
pub struct OrderFile {
    /// The parts of its name.
    pub name: Name,
    /// Flat part and rate of its kind.
    pub tariff: Tariff,
    /// Its orders, in the file's order.
    pub orders: Vec<Order>,
}

impl OrderFile {
    /// How many of its orders are faulty.
    pub fn faulty(&self) -> u64 {
        let faulty = self.orders.iter().filter(|order| order.fault.is_some());
        faulty.count() as u64
    }
}

/// "Profile within the ranges above? 905", and document 02's 907 behind it.
pub fn ask_profile(profile: &Profile) -> Result<(), u32> {
    // "today (a real date, eight digits yyyymmdd)", years 2000 to 2099
    let today_good = is_real_date(profile.today);
    // "five fees by benefit kind 0 to 4, each 0 to 999,999,999", which are by
    // document 02 "the flat part within the old fee range"
    let flat_good = profile.flat.iter().all(|flat| *flat <= MOST_AMOUNT);
    // "R, the number of fields in a record line, 19 to 32"
    let fields_good = (19..=32).contains(&profile.fields);
    if !(today_good && flat_good && fields_good) {
        return Err(905);
    }
    // "907 when any of the profile's rates is above 10,000, asked after 905"
    if profile.rates.iter().any(|rate| *rate > MOST_RATE) {
        return Err(907);
    }
    Ok(())
}

/// A file that has passed the questions 001 to 023.
pub struct Opened<'a> {
    /// The parts of its name.
    pub name: Name,
    /// The header's 12 fields.
    header: Vec<&'a str>,
    /// The record lines.
    records: Vec<&'a str>,
}

/// "lines are parted by CR LF; one CR LF after the last line is allowed and
/// adds no line."
fn lines(text: &str) -> Vec<&str> {
    let text = text.strip_suffix("\r\n").unwrap_or(text);
    text.split("\r\n").collect()
}

/// "Another CR or LF spoils its line".
pub(crate) fn is_spoilt(line: &str) -> bool {
    line.contains(['\r', '\n'])
}

/// "Fields are parted by `|`, none at the line's end."
pub(crate) fn fields(line: &str) -> Vec<&str> {
    line.split('|').collect()
}

/// The questions 001 to 023.
pub fn open<'a>(name: &[u8], file: &'a [u8]) -> Result<Opened<'a>, u32> {
    // "File longer than 0 bytes? 001"
    if file.is_empty() {
        return Err(1);
    }
    // "Byte mark present, the rest well-formed UTF-8? 034"
    let Some(rest) = file.strip_prefix(b"\xEF\xBB\xBF") else {
        return Err(34);
    };
    let Ok(text) = std::str::from_utf8(rest) else {
        return Err(34);
    };

    // The name's questions, 003 to 022.
    let parts = read_name(name)?;
    let name_parts: Vec<&[u8]> = name.split(|byte| *byte == b'-').collect();

    // "Header has 12 fields, no stray CR or LF? 004"
    let lines = lines(text);
    let header = fields(lines[0]);
    if header.len() != 12 || is_spoilt(lines[0]) {
        return Err(4);
    }
    // "Header fields: 1 mark, 2 sender, 3 file code, 4 edition, 5 identifier,
    // 6 unit, 7 created (yyyymmddhhmmss), 8 benefit date (yyyymmdd), 9 payment
    // kind, 10 benefit kind, 11 order count, 12 sum."
    let field = |position: usize| header[position - 1];

    // "Field 1 is `1`? 005"
    if field(1) != "1" {
        return Err(5);
    }
    // "Field 2 is `ZUS`? 011"
    if field(2) != "ZUS" {
        return Err(11);
    }
    // "Field 3 is `EPE`? 008"
    if field(3) != "EPE" {
        return Err(8);
    }
    // "Field 4 is `1.0`? 099"
    if field(4) != "1.0" {
        return Err(99);
    }
    // "Field 5 equals the name's identifier? 014"
    if field(5).as_bytes() != parts.identifier {
        return Err(14);
    }
    // "Field 8 equals `20` + the name's date? 017"
    if field(8).as_bytes() != [b"20", name_parts[1]].concat() {
        return Err(17);
    }
    // "Field 9 as in the name? 020"
    if field(9).as_bytes() != name_parts[2] {
        return Err(20);
    }
    // "Field 10 as in the name? 023"
    if field(10).as_bytes() != name_parts[3] {
        return Err(23);
    }
    Ok(Opened {
        name: parts,
        header,
        records: lines[1..].to_vec(),
    })
}

impl Opened<'_> {
    /// The questions 102 to 132, then 906, and the faults of an accepted file's
    /// orders.
    pub fn judge_rest(self, profile: &Profile) -> Result<OrderFile, u32> {
        let field = |position: usize| self.header[position - 1].as_bytes();

        // "Field 7 not empty? 102"
        if field(7).is_empty() {
            return Err(102);
        }
        // "Field 7 a real date, hour 00-23, minute and second 00-59, from 60
        // days before to 10 days after today? 103"
        if !is_created(field(7), profile.today) {
            return Err(103);
        }
        // "Field 6 not empty? 120"
        if field(6).is_empty() {
            return Err(120);
        }
        // "Field 6 six letters or digits? 121"
        if field(6).len() != 6 || !field(6).iter().all(|b| is_letter(*b) || is_digit(*b)) {
            return Err(121);
        }
        // "Field 8 within 30 days of today on either side? 125"
        // (017 has made field 8 the name's date, and 016 that a real one.)
        if !is_within(self.name.date, 30, 30, profile.today) {
            return Err(125);
        }
        // "Field 11 is 1 to 6 digits? 126"
        if !are_digits(field(11), 1, 6) {
            return Err(126);
        }
        // "At least 1? 127"
        let count = number(field(11));
        if count < 1 {
            return Err(127);
        }
        // "Field 12 reads as a sum? 130"
        let Some(sum) = read_sum(field(12)) else {
            return Err(130);
        };
        // "Above zero? 131"
        if sum == 0 {
            return Err(131);
        }

        // "Every record line has R fields, no stray CR or LF, first field `2`,
        // second 1 to 6 digits whose value counts 1, 2, 3 ..? 901"
        let mut records: Vec<Vec<&str>> = Vec::new();
        for (index, line) in self.records.iter().enumerate() {
            let record = fields(line);
            let good = record.len() as u64 == profile.fields
                && !is_spoilt(line)
                && record[0] == "2"
                && are_digits(record[1].as_bytes(), 1, 6)
                && number(record[1].as_bytes()) == index as u64 + 1;
            if !good {
                return Err(901);
            }
            records.push(record);
        }
        // "Every field 3 reads as an amount, above zero? 902"
        let mut amounts: Vec<u64> = Vec::new();
        for record in &records {
            match read_amount(record[2].as_bytes()) {
                Some(amount) if amount > 0 => amounts.push(amount),
                _ => return Err(902),
            }
        }
        // "Number of record lines equals field 11? 129"
        if records.len() as u64 != count {
            return Err(129);
        }
        // "Amounts add up to field 12? 132"
        if amounts.iter().sum::<u64>() != sum {
            return Err(132);
        }

        // "906 when an order's fee exceeds 999,999,999, asked after 132"
        let tariff = profile.tariff(self.name.kind);
        if amounts
            .iter()
            .any(|amount| tariff.fee_of(*amount).fee > MOST_AMOUNT)
        {
            return Err(906);
        }

        let mut orders = Vec::new();
        for (record, amount) in records.iter().zip(amounts) {
            let said = judge_extra(record[11].as_bytes());
            orders.push(Order {
                amount,
                fee: tariff.fee_of(amount),
                fault: first_fault(record, said),
            });
        }
        Ok(OrderFile {
            name: self.name,
            tariff,
            orders,
        })
    }
}

/// "Field 7 a real date, hour 00-23, minute and second 00-59, from 60 days
/// before to 10 days after today?" Its form is yyyymmddhhmmss.
fn is_created(text: &[u8], today: u64) -> bool {
    if !are_digits(text, 14, 14) {
        return false;
    }
    let (date, time) = (number(&text[..8]), number(&text[8..]));
    is_real_date(date) && is_time_of_day(time) && is_within(date, 60, 10, today)
}

/// "An order is faulty by its first fault". Of extra (12) only what is said of it
/// has a part here.
pub(crate) fn first_fault(record: &[&str], extra: ExtraSaid) -> Option<u8> {
    let field = |position: usize| record[position - 1];
    // "Lengths count code points, not bytes."
    let length = |position: usize| field(position).chars().count();
    let is_empty = |position: usize| field(position).is_empty();

    // "1 surname (field 4) not 1 to 31 long"
    if !(1..=31).contains(&length(4)) {
        return Some(1);
    }
    // "2 first name (5) not 1 to 22"
    if !(1..=22).contains(&length(5)) {
        return Some(2);
    }
    // "3 post town (6) not 1 to 35"
    if !(1..=35).contains(&length(6)) {
        return Some(3);
    }
    // "4 postcode (7) not dd-ddd"
    if !is_postcode(field(7).as_bytes()) {
        return Some(4);
    }
    // "5 town (8) or street (9) above 35, or town, street and extra (12) all
    // empty"
    if length(8) > 35 || length(9) > 35 || (is_empty(8) && is_empty(9) && extra.empty) {
        return Some(5);
    }
    // "6 house number (10) above 11, or empty while extra is empty"
    if length(10) > 11 || (is_empty(10) && extra.empty) {
        return Some(6);
    }
    // "7 extra not empty and not `PR`, nor `SP_` or `PP_` with 1 to 5 digits"
    if extra.fails {
        return Some(7);
    }
    // "8 benefit identifier (14) not 1 to 20"
    if !(1..=20).contains(&length(14)) {
        return Some(8);
    }
    // "9 period (15) not 1 to 35"
    if !(1..=35).contains(&length(15)) {
        return Some(9);
    }
    // "10 one of fields 4 to 19 starts or ends with a space"
    let is_spaced = |position: usize| {
        if position == 12 {
            extra.spaced
        } else {
            field(position).starts_with(' ') || field(position).ends_with(' ')
        }
    };
    if (4..=19).any(is_spaced) {
        return Some(10);
    }
    // "Nothing else in a record is judged."
    None
}

/// dd-ddd
fn is_postcode(text: &[u8]) -> bool {
    text.len() == 6
        && are_digits(&text[..2], 2, 2)
        && text[2] == b'-'
        && are_digits(&text[3..], 3, 3)
}

/// `PR`, or `SP_` or `PP_` with 1 to 5 digits.
pub(crate) fn is_extra(text: &[u8]) -> bool {
    if text == b"PR" {
        return true;
    }
    match text
        .strip_prefix(b"SP_")
        .or_else(|| text.strip_prefix(b"PP_"))
    {
        Some(digits) => are_digits(digits, 1, 5),
        None => false,
    }
}

/// The file alone, apart from the book's questions 900, 101, 903 and 904: what
/// it states, or the number of the first question that it fails.
pub fn read_file(profile: &Profile, name: &[u8], file: &[u8]) -> Result<OrderFile, u32> {
    ask_profile(profile)?;
    open(name, file)?.judge_rest(profile)
}

/// The judgement of a file alone: its order count and its faulty count, or the
/// number of the first question that it fails.
pub fn judge(profile: &Profile, name: &[u8], file: &[u8]) -> Result<(u64, u64), u32> {
    let file = read_file(profile, name, file)?;
    Ok((file.orders.len() as u64, file.faulty()))
}
