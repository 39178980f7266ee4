//! Whether lent memory is a sound book.

use super::calendar::is_real;
use super::layout::state::{FAULTY, K_WAITS, OPEN, O_WAITS};
use super::layout::{
    accepted, date, flat, identifier, kind, orders, payment, rate, returned, stage, Head, Parts,
    Rows, GO_AHEAD, STAGE,
};
use super::text::is_identifier;
use super::{ORDER_CAP, RATE_CAP, SUM_CAP};
use buntingraft::Money;

/// Is the memory a sound book?
pub fn is_sound(book: &Parts) -> bool {
    let Some(heads) = book.heads.get(..usize::from(*book.count)) else {
        return false;
    };
    let mut rows = book.rows();
    for (index, head) in heads.iter().enumerate() {
        let Some((own, later)) = rows.split_at_checked(orders(head)) else {
            return false;
        };
        let is_namesake = |other: &Head| other[..18] == head[..18];
        if !is_name_in_form(head)
            || !is_shipment_sound(head, own)
            || heads[..index].iter().any(is_namesake)
        {
            return false;
        }
        rows = later;
    }
    true
}

/// Are all parts of the name in form?
fn is_name_in_form(head: &Head) -> bool {
    head[17] <= 17
        && is_identifier(identifier(head))
        && head[..17][usize::from(head[17])..]
            .iter()
            .all(|byte| *byte == 0)
        && is_real(date(head))
        && matches!(payment(head), b'A' | b'B')
        && kind(head) <= 4
}

/// Is the shipment sound, but for its name?
fn is_shipment_sound(head: &Head, rows: Rows) -> bool {
    let (stage, go_ahead) = (head[STAGE], head[GO_AHEAD]);
    if stage > stage::CLOSED || go_ahead > 1 || rows.states.is_empty() {
        return false;
    }
    if u64::from(flat(head)) > ORDER_CAP || u64::from(rate(head)) > RATE_CAP {
        return false;
    }
    let (Some(states), Some([amounts, fees])) = (tally(rows.states), needs(head, rows)) else {
        return false;
    };
    let is_paired = stage == stage::PAIRED;
    if !is_paired && states.only_paired
        || go_ahead == 1 && !states.faulty
        || go_ahead == 0 && is_paired && states.faulty
    {
        return false;
    }
    is_covered(head, Money::K, amounts) && is_covered(head, Money::O, fees)
}

/// What some orders' states are.
struct States {
    /// Some order is Faulty.
    faulty: bool,
    /// Some order is in a state that may stand in a Paired shipment alone.
    only_paired: bool,
}

/// What the states are, if each byte is one.
fn tally(states: &[u8]) -> Option<States> {
    let (mut faulty, mut only_paired, mut none) = (false, false, false);
    for state in states.iter().copied() {
        let is_faulty = (state >= *FAULTY.start()) & (state <= *FAULTY.end());
        none |= (state > *FAULTY.end()) | (state == 3) | (state == 6) | (state == 7);
        faulty |= is_faulty;
        only_paired |= (state != OPEN) & !(is_faulty & (state % 4 == K_WAITS + O_WAITS));
    }
    let states = States {
        faulty,
        only_paired,
    };
    (!none).then_some(states)
}

/// The sums of amounts and of fees, if each is in range and the division of each
/// fee holds.
fn needs(head: &Head, rows: Rows) -> Option<[u64; 2]> {
    match rate(head) {
        0 => needs_without_rate(flat(head), rows),
        rate => needs_with_rate(flat(head), u64::from(rate), rows),
    }
}

/// The same where the rate is 0: each fee is the flat part, and nothing is left.
fn needs_without_rate(flat: u32, rows: Rows) -> Option<[u64; 2]> {
    let (mut amounts, mut is_wrong) = (0, false);
    for amount in rows.amounts {
        let amount = u32::from_le_bytes(*amount);
        is_wrong |= amount.wrapping_sub(1) >= ORDER_CAP as u32;
        amounts += u64::from(amount);
    }
    let (mut other_fees, mut left) = (0, 0);
    for fee in rows.fees {
        other_fees |= u32::from_le_bytes(*fee) ^ flat;
    }
    for remainder in rows.remainders {
        left |= u16::from_le_bytes(*remainder);
    }
    let fees = u64::from(flat) * rows.fees.len() as u64;
    (!is_wrong && other_fees == 0 && left == 0).then_some([amounts, fees])
}

/// The same where it is not: a loop for each width of numbers.
fn needs_with_rate(flat: u32, rate: u64, rows: Rows) -> Option<[u64; 2]> {
    let mut is_wrong = false;
    for (amount, fee) in rows.amounts.iter().zip(rows.fees) {
        let (amount, fee) = (u32::from_le_bytes(*amount), u32::from_le_bytes(*fee));
        is_wrong |= amount.wrapping_sub(1) >= ORDER_CAP as u32;
        is_wrong |= (fee > ORDER_CAP as u32) | (fee < flat);
    }
    for remainder in rows.remainders {
        is_wrong |= u16::from_le_bytes(*remainder) >= RATE_CAP as u16;
    }
    let (mut amounts, mut fees, mut differences) = (0, 0, 0);
    let columns = rows.amounts.iter().zip(rows.fees).zip(rows.remainders);
    for ((amount, fee), remainder) in columns {
        let (amount, fee) = (u32::from_le_bytes(*amount), u32::from_le_bytes(*fee));
        let remainder = u16::from_le_bytes(*remainder);
        let rated = u64::from(fee.wrapping_sub(flat));
        differences |= (RATE_CAP * rated + u64::from(remainder)) ^ (u64::from(amount) * rate);
        amounts += u64::from(amount);
        fees += u64::from(fee);
    }
    (!is_wrong && differences == 0).then_some([amounts, fees])
}

/// Are the sums of a money in range, and do transfers cover surplus and need?
fn is_covered(head: &Head, money: Money, need: u64) -> bool {
    let (accepted, returned) = (accepted(head, money), returned(head, money));
    let need = if head[STAGE] == stage::PAIRED {
        need
    } else {
        0
    };
    accepted <= SUM_CAP
        && returned <= SUM_CAP
        && returned + need <= accepted
        && (head[STAGE] != stage::WAITING || returned == 0)
}
