//! Digits, letters, amounts, sums and identifiers.

use crate::output::write_to;

/// "Letters are A-Z and a-z".
pub fn is_letter(byte: u8) -> bool {
    byte.is_ascii_alphabetic()
}

/// A digit is one of the bytes 0 to 9, nothing else Unicode may call so.
pub fn is_digit(byte: u8) -> bool {
    byte.is_ascii_digit()
}

/// Are there `least` to `most` bytes, all of them digits?
pub fn are_digits(bytes: &[u8], least: usize, most: usize) -> bool {
    bytes.len() >= least && bytes.len() <= most && bytes.iter().all(|byte| is_digit(*byte))
}

/// The number that some digits read as (no more than 19 of them).
pub fn number(digits: &[u8]) -> u64 {
    let mut value = 0;
    for digit in digits {
        value = value * 10 + u64::from(digit - b'0');
    }
    value
}

/// Some digits, a point and two digits, read as grosze.
fn read_money(text: &[u8], most_digits: usize) -> Option<u64> {
    let point = text.iter().position(|byte| *byte == b'.')?;
    let zlotys = &text[..point];
    let grosze = &text[point + 1..];
    if !are_digits(zlotys, 1, most_digits) || !are_digits(grosze, 2, 2) {
        return None;
    }
    // "Reading an amount or a sum now demands no leading zero except a single
    // zero before the point" (document 02, A3)
    if zlotys.starts_with(b"0") && zlotys != b"0" {
        return None;
    }
    Some(number(zlotys) * 100 + number(grosze))
}

/// An amount: "Its text is 1 to 7 digits, a point, 2 digits [...] Either text
/// may read zero." Seven digits cannot pass the cap of 999,999,999.
pub fn read_amount(text: &[u8]) -> Option<u64> {
    read_money(text, 7)
}

/// A sum: "1 to 11 digits before the point and reads at most
/// 9,999,999,999,999". Eleven digits cannot pass that cap.
pub fn read_sum(text: &[u8]) -> Option<u64> {
    read_money(text, 11)
}

/// The text of a number of grosze: "each number of grosze has one text. [...]
/// All writers, later ones too, use the same spelling." (document 02, A3)
pub fn write_money(grosze: u64) -> String {
    format!("{}.{:02}", grosze / 100, grosze % 100)
}

/// [`write_money`] into a lent output: gives the length written, or 30.
pub fn write_money_into(grosze: u64, output: &mut [u8]) -> Result<usize, u32> {
    write_to(output, write_money(grosze).as_bytes())
}

/// "A shipment identifier is two letters, then 1 to 15 letters or digits."
pub fn is_identifier(bytes: &[u8]) -> bool {
    bytes.len() >= 3
        && bytes.len() <= 17
        && bytes[..2].iter().all(|byte| is_letter(*byte))
        && bytes[2..]
            .iter()
            .all(|byte| is_letter(*byte) || is_digit(*byte))
}
