//! The calls by which a shipment is probed: together their answers show all of
//! it that a caller can see.

use crate::numbers::Numbers;
use reference::{Call, Shipment};

/// From this number of orders on, a shipment is probed by as many of them,
/// drawn at random.
const MOST_ORDERS: usize = 12;

/// Every call for a shipment: go-ahead, pair, close, each return, and each deed
/// on each order.
pub fn calls_for(shipment: &Shipment, numbers: &mut Numbers) -> Vec<Call> {
    let id = || shipment.name.identifier.clone();
    let mut calls = vec![
        Call::GoAhead { identifier: id() },
        Call::Pair { identifier: id() },
        Call::Close { identifier: id() },
    ];
    for (route, money) in (0..4).flat_map(|route| [(route, 0), (route, 1)]) {
        calls.push(Call::Return {
            identifier: id(),
            route,
            money,
        });
    }
    let count = shipment.rows.len();
    for place in 0..count.min(MOST_ORDERS) {
        let order = if count > MOST_ORDERS {
            numbers.below(count)
        } else {
            place
        };
        calls.extend(deeds_on(&shipment.name.identifier, order as u64 + 1));
    }
    calls
}

/// The four calls on an order.
pub fn deeds_on(identifier: &[u8], order: u64) -> [Call; 4] {
    let id = || identifier.to_vec();
    [
        Call::Post {
            identifier: id(),
            order,
        },
        Call::Pay {
            identifier: id(),
            order,
        },
        Call::MarkUndelivered {
            identifier: id(),
            order,
        },
        Call::Withdraw {
            identifier: id(),
            order,
        },
    ]
}
