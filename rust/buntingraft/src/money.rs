//! The two moneys, which never add, and the routes by which they go back.

use crate::spelling::write_money;
use std::fmt;

/// Grosze of K, the orders' amounts. Shown in zloty, as
/// [`write_money`](crate::write_money) spells it.
///
/// ```
/// assert_eq!(buntingraft::Amount(17_550).to_string(), "175.50");
/// ```
#[repr(transparent)]
#[derive(Clone, Copy, Debug, Default, PartialEq, Eq, PartialOrd, Ord, Hash)]
pub struct Amount(pub u64);

/// Grosze of O, the contractor's fees. Shown in zloty, as
/// [`write_money`](crate::write_money) spells it.
///
/// ```
/// assert_eq!(buntingraft::Fee(1_050).to_string(), "10.50");
/// ```
#[repr(transparent)]
#[derive(Clone, Copy, Debug, Default, PartialEq, Eq, PartialOrd, Ord, Hash)]
pub struct Fee(pub u64);

impl fmt::Display for Amount {
    fn fmt(&self, f: &mut fmt::Formatter<'_>) -> fmt::Result {
        f.pad(&write_money(self.0))
    }
}

impl fmt::Display for Fee {
    fn fmt(&self, f: &mut fmt::Formatter<'_>) -> fmt::Result {
        f.pad(&write_money(self.0))
    }
}

/// Which money a return is of.
#[derive(Clone, Copy, Debug, PartialEq, Eq, Hash)]
pub enum Money {
    /// Amounts.
    K,
    /// Fees.
    O,
}

impl Money {
    /// Both moneys.
    pub const ALL: [Money; 2] = [Money::K, Money::O];

    /// The number by which the archive knows this money.
    pub fn number(self) -> u64 {
        match self {
            Money::K => 0,
            Money::O => 1,
        }
    }
}

impl fmt::Display for Money {
    fn fmt(&self, f: &mut fmt::Formatter<'_>) -> fmt::Result {
        f.pad(match self {
            Money::K => "K",
            Money::O => "O",
        })
    }
}

/// The routes by which money goes back to the insurer.
#[derive(Clone, Copy, Debug, PartialEq, Eq, Hash)]
pub enum Route {
    /// Free money: the shipment's transfers, less its need where it is Paired,
    /// less what ZWR returned.
    Zwr,
    /// What waits in Faulty orders.
    Opr,
    /// What waits in Undelivered orders: amounts alone.
    Zpr,
    /// What waits in Withdrawn orders.
    Zzr,
}

impl Route {
    /// All routes, in the order of their numbers.
    pub const ALL: [Route; 4] = [Route::Zwr, Route::Opr, Route::Zpr, Route::Zzr];

    /// The number by which the archive knows this route.
    pub fn number(self) -> u64 {
        match self {
            Route::Zwr => 0,
            Route::Opr => 1,
            Route::Zpr => 2,
            Route::Zzr => 3,
        }
    }
}

impl fmt::Display for Route {
    fn fmt(&self, f: &mut fmt::Formatter<'_>) -> fmt::Result {
        f.pad(match self {
            Route::Zwr => "ZWR",
            Route::Opr => "OPR",
            Route::Zpr => "ZPR",
            Route::Zzr => "ZZR",
        })
    }
}
