//! "The name is `EPEZ` + identifier, yymmdd, A or B, kind 0 to 4, joined by
//! hyphens." And the title of a transfer, which is such a name, perhaps with
//! its date as 20yymmdd, and a money.

use crate::book::Money;
use crate::calendar::is_real_date;
use crate::text::{are_digits, is_identifier, number};

/// A shipment's name parts.
#[derive(Clone, Debug, PartialEq, Eq)]
pub struct Name {
    /// The identifier's 3 to 17 bytes.
    pub identifier: Vec<u8>,
    /// The benefit date with its century, as the number 20yymmdd.
    pub date: u64,
    /// The payment kind, `b'A'` or `b'B'`.
    pub payment: u8,
    /// The benefit kind, 0 to 4.
    pub kind: u8,
}

impl Name {
    /// "every name part in its form"
    pub fn is_in_form(&self) -> bool {
        is_identifier(&self.identifier)
            && is_real_date(self.date)
            && (self.payment == b'A' || self.payment == b'B')
            && self.kind <= 4
    }
}

/// The questions a name is asked, 003 to 022.
pub fn read_name(name: &[u8]) -> Result<Name, u32> {
    // "Name has exactly three hyphens? 003"
    let parts: Vec<&[u8]> = name.split(|byte| *byte == b'-').collect();
    if parts.len() != 4 {
        return Err(3);
    }
    // "Name starts EPE? 007"
    if !name.starts_with(b"EPE") {
        return Err(7);
    }
    // "Then Z? 010"
    if !name.starts_with(b"EPEZ") {
        return Err(10);
    }
    // "Rest of its first part an identifier? 013"
    let identifier = &parts[0][4..];
    if !is_identifier(identifier) {
        return Err(13);
    }
    // "Second part six digits, a real date 20yymmdd? 016" (document 02, A1:
    // "File names keep six.")
    if !are_digits(parts[1], 6, 6) || !is_real_date(20_000_000 + number(parts[1])) {
        return Err(16);
    }
    // "Third part A or B? 019"
    if parts[2] != b"A" && parts[2] != b"B" {
        return Err(19);
    }
    // "Fourth part one digit 0 to 4? 022"
    if !are_digits(parts[3], 1, 1) || number(parts[3]) > 4 {
        return Err(22);
    }
    Ok(Name {
        identifier: identifier.to_vec(),
        date: 20_000_000 + number(parts[1]),
        payment: parts[2][0],
        kind: parts[3][0] - b'0',
    })
}

/// "From now on a title's second part may also have eight digits: `20` and a
/// name's six mean what the six alone would, and another eight is 11."
/// (document 02, A1)
///
/// So a second part of eight bytes that begin `20` loses these two. Whether the
/// other six are a name's is for 016 to say, which says no to any other eight.
fn short(title: &[u8]) -> Vec<u8> {
    let mut parts: Vec<&[u8]> = title.split(|byte| *byte == b'-').collect();
    if parts.len() > 1 && parts[1].len() == 8 && parts[1].starts_with(b"20") {
        parts[1] = &parts[1][2..];
    }
    parts.join(&b'-')
}

/// "title is a shipment name in the form above, then `-K` or `-O`? 11", asked
/// of the shortened title.
pub fn read_title(title: &[u8]) -> Result<(Name, Money), u32> {
    let title = short(title);
    let (name, money) = if let Some(name) = title.strip_suffix(b"-K") {
        (name, Money::K)
    } else if let Some(name) = title.strip_suffix(b"-O") {
        (name, Money::O)
    } else {
        return Err(11);
    };
    match read_name(name) {
        Ok(name) => Ok((name, money)),
        Err(_) => Err(11),
    }
}
