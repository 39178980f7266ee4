//! Which shipment a call names, and how a transfer names one.

use reference::{Book, Call, Money, Name};

/// The place of the shipment that a call names, if it is in the book.
pub fn position_named(call: &Call, book: &Book) -> Option<usize> {
    let identifier = match call {
        Call::Intake { name, .. } => reference::read_name(name).ok()?.identifier,
        Call::Transfer { title, .. } => reference::read_title(title).ok()?.0.identifier,
        Call::GoAhead { identifier }
        | Call::Pair { identifier }
        | Call::Close { identifier }
        | Call::Post { identifier, .. }
        | Call::Pay { identifier, .. }
        | Call::MarkUndelivered { identifier, .. }
        | Call::Withdraw { identifier, .. }
        | Call::Return { identifier, .. } => identifier.clone(),
    };
    let mut shipments = book.shipments.iter();
    shipments.position(|shipment| shipment.name.identifier == identifier)
}

/// Both moneys, in the order of their numbers.
pub const MONEYS: [Money; 2] = [Money::K, Money::O];

/// The title of a transfer of a money, for the shipment of this name.
pub fn title(name: &Name, money: Money) -> Vec<u8> {
    dated_title(name, &six_digits(name), money)
}

/// The same title with a long date: `20` and the name's six digits.
pub fn long_title(name: &Name, money: Money) -> Vec<u8> {
    dated_title(name, &format!("20{}", six_digits(name)), money)
}

/// The same title with this text where its date stands.
pub fn dated_title(name: &Name, date: &str, money: Money) -> Vec<u8> {
    let identifier = String::from_utf8_lossy(&name.identifier);
    let (payment, kind) = (char::from(name.payment), name.kind);
    format!("EPEZ{identifier}-{date}-{payment}-{kind}-{money:?}").into_bytes()
}

/// The six digits of the date in a name.
fn six_digits(name: &Name) -> String {
    format!("{:06}", name.date % 1_000_000)
}

/// Is the second part of a title as long as a long date?
pub fn has_long_date(title: &[u8]) -> bool {
    let mut parts = title.split(|byte| *byte == b'-');
    parts.nth(1).is_some_and(|second| second.len() == 8)
}

/// Texts that are nearly the long date of a name: of another century, with
/// digits too few or too many, a hyphen, a letter or a day that is none, and cut
/// off after six digits.
pub fn nearly_long_dates(name: &Name) -> Vec<String> {
    let six = six_digits(name);
    let (four, five) = (&six[..4], &six[..5]);
    let mut dates = Vec::new();
    for before in ["19", "21", "02", "2", "0", "020", "2020", "20-", "-20"] {
        dates.push(format!("{before}{six}"));
    }
    for behind in ["", "x", "-", "00"] {
        dates.push(format!("20{five}{behind}"));
    }
    for behind in ["", "00", "32"] {
        dates.push(format!("20{four}{behind}"));
    }
    dates
}
