//! What the calls answer when they are not refused.

use crate::money::{Amount, Fee};

/// An intake's answer.
#[derive(Clone, Copy, Debug, PartialEq, Eq)]
pub struct Accepted {
    /// The number of orders taken in.
    pub orders: u64,
    /// How many of them are faulty.
    pub faulty: u64,
}

/// The answer to pairing a shipment with its transfers.
#[derive(Clone, Copy, Debug, PartialEq, Eq)]
pub enum Pairing {
    /// Both needs are covered, and the shipment is Paired.
    Paired,
    /// Money is missing, and the shipment stays as it was.
    Short {
        /// What is missing of K.
        k: Amount,
        /// What is missing of O.
        o: Fee,
    },
}

/// A return's answer.
#[derive(Clone, Copy, Debug, PartialEq, Eq)]
pub struct Returned {
    /// The sum that goes back, in grosze of the money asked for.
    pub sum: u64,
    /// The number of orders that the sum is of; 0 for ZWR.
    pub count: u64,
}
