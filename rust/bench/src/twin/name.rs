//! The name of an order file, and the title of a transfer.

use super::calendar::is_real;
use super::text::{is_identifier, number};
use super::Refusal;
use buntingraft::Money;

/// The parts of a name.
pub struct Name<'a> {
    /// The shipment's identifier.
    pub identifier: &'a [u8],
    /// The date's six digits.
    pub digits: &'a str,
    /// The date with its century.
    pub date: u32,
    /// `A` or `B`.
    pub payment: u8,
    /// The benefit kind, 0 to 4.
    pub kind: u8,
}

/// The four parts of a name (003).
fn four_parts(name: &[u8]) -> Result<[&[u8]; 4], Refusal> {
    let mut parts = name.split(|byte| *byte == b'-');
    let mut next = || parts.next();
    match (next(), next(), next(), next(), next()) {
        (Some(first), Some(digits), Some(payment), Some(kind), None) => {
            Ok([first, digits, payment, kind])
        }
        _ => Err(3),
    }
}

/// Asks the parts of a name the questions 007 to 022.
fn read_parts([first, digits, payment, kind]: [&[u8]; 4]) -> Result<Name<'_>, Refusal> {
    let identifier = first.strip_prefix(b"EPE").ok_or(7u64)?;
    let identifier = identifier.strip_prefix(b"Z").ok_or(10u64)?;
    if !is_identifier(identifier) {
        return Err(13);
    }
    let digits = std::str::from_utf8(digits).map_err(|_| 16u64)?;
    let date = 20_000_000 + number(digits, 6, 6).ok_or(16u64)? as u32;
    if !is_real(date) {
        return Err(16);
    }
    let &[payment @ (b'A' | b'B')] = payment else {
        return Err(19);
    };
    let &[kind @ b'0'..=b'4'] = kind else {
        return Err(22);
    };
    Ok(Name {
        identifier,
        digits,
        date,
        payment,
        kind: kind - b'0',
    })
}

/// Asks a name the questions 003 to 022.
pub fn read_name(name: &[u8]) -> Result<Name<'_>, Refusal> {
    read_parts(four_parts(name)?)
}

/// The name and the money of a transfer's title, in which the date may have its
/// century too.
pub fn read_title(title: &[u8]) -> Result<(Name<'_>, Money), Refusal> {
    let (name, money) = match title {
        [name @ .., b'-', b'K'] => (name, Money::K),
        [name @ .., b'-', b'O'] => (name, Money::O),
        _ => return Err(11),
    };
    let [first, date, payment, kind] = four_parts(name).map_err(|_| 11u64)?;
    let digits = match date {
        [b'2', b'0', digits @ ..] if digits.len() == 6 => digits,
        digits => digits,
    };
    let name = read_parts([first, digits, payment, kind]);
    Ok((name.map_err(|_| 11u64)?, money))
}
