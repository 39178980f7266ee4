//! A good book with whole fields of its heads and rows set to numbers at the
//! edges of what is sound, and with flat parts, rates, fees and remainders set
//! together, so that the division holds or nearly does.

use super::{calls_in_turn, try_calls, Desk};
use crate::coverage::Coverage;
use crate::layout::{FLAT, HEAD, HEADS, HEAD_NUMBERS, IDENTIFIER, LENGTH, RATE, ROW_NUMBERS};
use crate::naming::MONEYS;
use crate::twin::Twin;
use reference::{Book, Fee, Row, Shipment, Tariff, MOST_AMOUNT, MOST_RATE, MOST_SUM};

/// Sets each number of each head and each number of each row to each edge, each
/// identifier to each other's, and each tariff with its fees to each near one.
pub fn check(rich: &[u8], book: &Book, coverage: &mut Coverage) {
    let mut desk = Desk::with_room(LENGTH, coverage);
    let mut first = 0;
    for (place, shipment) in book.shipments.iter().enumerate() {
        let head = HEADS + HEAD * place;
        let mut try_set = |place, bytes: &[u8]| set(rich, place, bytes, book, &mut desk);
        let edges = edges(shipment).into_iter().map(u64::to_le_bytes);
        for field in HEAD_NUMBERS {
            for edge in edges.clone() {
                try_set(head + field.start, &edge[..field.len()]);
            }
        }
        for other in 0..book.shipments.len() {
            try_set(head, &rich[HEADS + HEAD * other..][..IDENTIFIER.len()]);
        }
        for (order, row) in (first..).zip(&shipment.rows) {
            let around = around_row(row).into_iter().map(u64::to_le_bytes);
            for column in ROW_NUMBERS.map(|column| column.of(order)) {
                for edge in edges.clone().chain(around.clone()) {
                    try_set(column.start, &edge[..column.len()]);
                }
            }
        }
        tariffs(rich, book, place, first, &mut desk);
        first += shipment.rows.len();
    }
}

/// Numbers around the caps, around what the shipment needs and has, and around
/// the counts, dates and rates that can be.
fn edges(shipment: &Shipment) -> Vec<u64> {
    let mut numbers = vec![0, 1, 2, 2_048, MOST_AMOUNT, MOST_SUM, u64::MAX - 1];
    numbers.extend([20_000_101, 20_991_231, 20_200_229, 20_201_007, 20_201_031]);
    numbers.extend([MOST_RATE, shipment.tariff.flat, shipment.tariff.rate]);
    numbers.push(shipment.rows.len() as u64);
    for money in MONEYS {
        let (need, accepted) = (shipment.need(money), shipment.accepted(money));
        let returned = shipment.returned(money);
        numbers.extend([
            need,
            accepted,
            returned,
            need + returned,
            accepted.saturating_sub(need),
        ]);
    }
    around(numbers)
}

/// Numbers around those of a row, and as far from them as a product with 10,000
/// has the same 32 bits.
fn around_row(row: &Row) -> Vec<u64> {
    let own = [row.amount, row.fee.fee, row.fee.remainder];
    around([own, own.map(|number| number + (1 << 28))].concat())
}

/// These numbers, and those beside them.
fn around(numbers: Vec<u64>) -> Vec<u64> {
    let around = |number: u64| [number.saturating_sub(1), number, number.saturating_add(1)];
    numbers.into_iter().flat_map(around).collect()
}

/// A way to give an order a fee that is nearly its own.
type Near = fn(Fee) -> Fee;

/// The fee itself; a grosz moved between fee and remainder, either way; and one
/// ten-thousandth more.
const NEARLY: [Near; 4] = [
    |fee| fee,
    |fee| moved(fee, -1),
    |fee| moved(fee, 1),
    |fee| Fee {
        remainder: fee.remainder + 1,
        ..fee
    },
];

/// The fee with so many grosze more, which the remainder loses.
fn moved(fee: Fee, grosze: i64) -> Fee {
    Fee {
        fee: fee.fee.wrapping_add_signed(grosze),
        remainder: fee.remainder.wrapping_add_signed(-10_000 * grosze),
    }
}

/// Gives the shipment at a place, whose orders begin with this one of the book,
/// other tariffs: those beside its own and at the edges, with the fees that the
/// division then gives all its orders, and with the last order's nearly so.
fn tariffs(rich: &[u8], book: &Book, place: usize, first: usize, desk: &mut Desk) {
    let shipment = &book.shipments[place];
    let most = shipment.rows.iter().map(|row| row.amount).max();
    for tariff in other_tariffs(shipment.tariff, most.unwrap_or(1)) {
        for nearly in NEARLY {
            let mut memory = rich.to_vec();
            let head = &mut memory[HEADS + HEAD * place..][..HEAD];
            head[FLAT].copy_from_slice(&tariff.flat.to_le_bytes()[..4]);
            head[RATE].copy_from_slice(&tariff.rate.to_le_bytes()[..2]);
            let last = shipment.rows.len() - 1;
            for (at, row) in shipment.rows.iter().enumerate() {
                let own = tariff.fee_of(row.amount);
                let fee = if at == last { nearly(own) } else { own };
                let [_, fees, remainders] = ROW_NUMBERS.map(|column| column.of(first + at));
                memory[fees].copy_from_slice(&fee.fee.to_le_bytes()[..4]);
                memory[remainders].copy_from_slice(&fee.remainder.to_le_bytes()[..2]);
            }
            let what = || format!("a good book with {tariff:?} at {place}");
            let calls = calls_in_turn(book, place);
            try_calls(&Twin::reading(&memory), &calls, what, desk);
        }
    }
}

/// Tariffs beside one and at the edges, among them those that make the fee of
/// this amount the largest, and a grosz more.
fn other_tariffs(own: Tariff, amount: u64) -> Vec<Tariff> {
    let mut tariffs = Vec::new();
    for rate in around(vec![own.rate, 1, MOST_RATE]) {
        let rated = Tariff { flat: 0, rate }.fee_of(amount).fee;
        for flat in around(vec![
            own.flat,
            MOST_AMOUNT,
            MOST_AMOUNT.saturating_sub(rated),
        ]) {
            tariffs.push(Tariff { flat, rate });
        }
    }
    tariffs
}

/// Tries every call with these bytes put at a place.
fn set(rich: &[u8], place: usize, bytes: &[u8], book: &Book, desk: &mut Desk) {
    let mut memory = rich.to_vec();
    memory[place..][..bytes.len()].copy_from_slice(bytes);
    let what = || format!("a good book with {bytes:?} at {place}");
    let calls = calls_in_turn(book, place);
    try_calls(&Twin::reading(&memory), &calls, what, desk);
}
