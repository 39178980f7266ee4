//! Short hands for calls.

use buntingraft::{Money, Route};
use reference::Call;

/// A transfer.
pub fn transfer(title: &str, amount: u64) -> Call {
    let title = title.into();
    Call::Transfer { title, amount }
}

/// A go-ahead.
pub fn go_ahead(identifier: &str) -> Call {
    let identifier = identifier.into();
    Call::GoAhead { identifier }
}

/// A pairing.
pub fn pair(identifier: &str) -> Call {
    let identifier = identifier.into();
    Call::Pair { identifier }
}

/// A close.
pub fn close(identifier: &str) -> Call {
    let identifier = identifier.into();
    Call::Close { identifier }
}

/// An order posted.
pub fn post(identifier: &str, order: u64) -> Call {
    let identifier = identifier.into();
    Call::Post { identifier, order }
}

/// An order paid.
pub fn pay(identifier: &str, order: u64) -> Call {
    let identifier = identifier.into();
    Call::Pay { identifier, order }
}

/// An order marked undelivered.
pub fn mark_undelivered(identifier: &str, order: u64) -> Call {
    let identifier = identifier.into();
    Call::MarkUndelivered { identifier, order }
}

/// An order withdrawn.
pub fn withdraw(identifier: &str, order: u64) -> Call {
    let identifier = identifier.into();
    Call::Withdraw { identifier, order }
}

/// A return.
pub fn give_back(identifier: &str, route: Route, money: Money) -> Call {
    give_back_by_number(identifier, route.number(), money.number())
}

/// A return, by the numbers of its route and money.
pub fn give_back_by_number(identifier: &str, route: u64, money: u64) -> Call {
    let identifier = identifier.into();
    Call::Return {
        identifier,
        route,
        money,
    }
}
