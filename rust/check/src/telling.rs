//! Calls in a form that can be read and made again, and the end of the program
//! at a difference.

use crate::archive::kind;
use reference::{Call, Money, Route};
use std::process::exit;

/// A call, in one line.
pub fn told(call: &Call) -> String {
    let what = kind(call);
    match call {
        Call::Intake {
            profile,
            name,
            file,
        } => {
            let (name, file) = (text(name), text(file));
            format!("{what} \"{name}\" \"{file}\", {profile:?}")
        }
        Call::Transfer { title, amount } => format!("{what} \"{}\" of {amount}", text(title)),
        Call::GoAhead { identifier } | Call::Pair { identifier } | Call::Close { identifier } => {
            format!("{what} {}", text(identifier))
        }
        Call::Post { identifier, order }
        | Call::Pay { identifier, order }
        | Call::MarkUndelivered { identifier, order }
        | Call::Withdraw { identifier, order } => {
            format!("{what} {}, order {order}", text(identifier))
        }
        Call::Return {
            identifier,
            route,
            money,
        } => format!("{what} {}, {}", text(identifier), way(*route, *money)),
    }
}

/// Ends the program with a difference.
pub fn end_with(difference: &str) -> ! {
    eprintln!("{difference}");
    exit(1)
}

/// Bytes as text: those that are not printable in the form `\x00`.
pub fn text(bytes: &[u8]) -> String {
    match std::str::from_utf8(bytes) {
        Ok(text) => text.escape_debug().to_string(),
        Err(_) => bytes.escape_ascii().to_string(),
    }
}

/// A return's route and money, by name where their numbers have one.
fn way(route: u64, money: u64) -> String {
    match (Route::from_number(route), Money::from_number(money)) {
        (Some(route), Some(money)) => format!("{route:?} {money:?}"),
        _ => format!("route {route} money {money}"),
    }
}
