//! Digits, numbers, money texts and identifiers.

/// The number that `least` to `most` digits write.
pub fn number(text: &str, least: usize, most: usize) -> Option<u64> {
    let digits = text.as_bytes();
    if digits.len() < least || digits.len() > most {
        return None;
    }
    digits.iter().try_fold(0, |value, digit| {
        let digit = digit.wrapping_sub(b'0');
        (digit < 10).then_some(value * 10 + u64::from(digit))
    })
}

/// The grosze that up to `most` digits, a point and two digits write. A zero is
/// the first of the digits only where it is the only one.
pub fn grosze(text: &str, most: usize) -> Option<u64> {
    let (zlotys, grosze) = text.split_at_checked(text.len().checked_sub(3)?)?;
    let grosze = number(grosze.strip_prefix('.')?, 2, 2)?;
    if zlotys.len() > 1 && zlotys.starts_with('0') {
        return None;
    }
    Some(number(zlotys, 1, most)? * 100 + grosze)
}

/// Is it a shipment identifier: two letters, then 1 to 15 letters or digits?
pub fn is_identifier(text: &[u8]) -> bool {
    (3..=17).contains(&text.len())
        && text[..2].iter().all(u8::is_ascii_alphabetic)
        && text[2..].iter().all(u8::is_ascii_alphanumeric)
}
