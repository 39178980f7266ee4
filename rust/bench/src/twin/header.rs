//! The opening of an order file: its bytes, its name and its header line.

use super::calendar::{is_moment, is_real, is_within};
use super::lines::{cut, line};
use super::name::{read_name, Name};
use super::text::{grosze, number};
use super::{Refusal, ORDER_CAP, RATE_CAP};
use buntingraft::Profile;

/// An order file that has passed 001 to 023.
pub struct Opened<'a> {
    /// The parts of its name.
    pub name: Name<'a>,
    /// The lines behind the header, as they are parted at LF.
    pub records: std::str::Split<'a, char>,
    /// The 12 fields of the header.
    header: [&'a str; 12],
}

/// What the header says of the records.
pub struct Stated {
    /// The number of orders.
    pub orders: u64,
    /// The sum of their amounts.
    pub sum: u64,
}

/// Is the profile within its ranges (905, 907)?
pub fn ask_profile(profile: &Profile) -> Result<(), Refusal> {
    let is_today_real = u32::try_from(profile.today).is_ok_and(is_real);
    if !is_today_real
        || profile.flat.iter().any(|flat| *flat > ORDER_CAP)
        || !(19..=32).contains(&profile.fields)
    {
        return Err(905);
    }
    if profile.rates.iter().any(|rate| *rate > RATE_CAP) {
        return Err(907);
    }
    Ok(())
}

/// Asks a file and its name the questions 001 to 023.
pub fn open<'a>(name: &'a [u8], file: &'a [u8]) -> Result<Opened<'a>, Refusal> {
    if file.is_empty() {
        return Err(1);
    }
    let text = file.strip_prefix(b"\xEF\xBB\xBF").ok_or(34u64)?;
    let text = std::str::from_utf8(text).map_err(|_| 34u64)?;
    let name = read_name(name)?;
    let text = text.strip_suffix("\r\n").unwrap_or(text);
    let mut records = text.split('\n');
    let first = records.next().unwrap_or_default();
    let mut header = [""; 12];
    let is_header =
        line(first, first.len() == text.len()).is_some_and(|line| cut(line, &mut header));
    if !is_header {
        return Err(4);
    }
    let opened = Opened {
        name,
        records,
        header,
    };
    opened.ask_header()?;
    Ok(opened)
}

impl Opened<'_> {
    /// Asks the header the questions 005 to 023.
    fn ask_header(&self) -> Result<(), Refusal> {
        let name = &self.name;
        let [mark, sender, code, edition, identifier, _, _, date, payment, kind, _, _] =
            self.header;
        let questions = [
            (mark == "1", 5),
            (sender == "ZUS", 11),
            (code == "EPE", 8),
            (edition == "1.0", 99),
            (identifier.as_bytes() == name.identifier, 14),
            (date.strip_prefix("20") == Some(name.digits), 17),
            (payment.as_bytes() == [name.payment], 20),
            (kind.as_bytes() == [b'0' + name.kind], 23),
        ];
        match questions.iter().find(|(yes, _)| !yes) {
            Some((_, refusal)) => Err(*refusal),
            None => Ok(()),
        }
    }

    /// Asks the header the questions 102 to 131.
    pub fn ask_rest_of_header(&self, today: u32) -> Result<Stated, Refusal> {
        let [_, _, _, _, _, unit, created, _, _, _, orders, sum] = self.header;
        if created.is_empty() {
            return Err(102);
        }
        if !is_created(created, today) {
            return Err(103);
        }
        if unit.is_empty() {
            return Err(120);
        }
        if unit.len() != 6 || !unit.bytes().all(|byte| byte.is_ascii_alphanumeric()) {
            return Err(121);
        }
        if !is_within(self.name.date, 30, 30, today) {
            return Err(125);
        }
        let orders = number(orders, 1, 6).ok_or(126u64)?;
        if orders == 0 {
            return Err(127);
        }
        let sum = grosze(sum, 11).ok_or(130u64)?;
        if sum == 0 {
            return Err(131);
        }
        Ok(Stated { orders, sum })
    }
}

/// Is it a real date and time of day, 60 days before today to 10 after?
fn is_created(text: &str, today: u32) -> bool {
    let Some(digits) = number(text, 14, 14) else {
        return false;
    };
    is_moment(digits) && is_within((digits / 1_000_000) as u32, 60, 10, today)
}
