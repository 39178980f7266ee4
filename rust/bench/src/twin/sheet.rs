//! The balance sheet.

use super::layout::{
    accepted, number, orders, returned, stage, state, sum, Grosze, Head, Rows, STAGE,
};
use super::{Book, Refusal};
use buntingraft::{Amount, Fee, Money, SheetRow, Totals, MOST_SHIPMENTS};

/// A total is at most this.
const TOTAL_CAP: u64 = 999_999_999_999_999;

impl<const SOUND: bool> Book<'_, SOUND> {
    /// Fills a row for each shipment and adds them to the totals (10, 25, 26).
    pub fn sheet_into(
        &mut self,
        table: &mut [SheetRow],
        totals: &mut Totals,
    ) -> Result<usize, Refusal> {
        let book = self.parts()?;
        let heads = book.shipments();
        let table = table.get_mut(..heads.len()).ok_or(25u64)?;
        let mut filled = [SheetRow::default(); MOST_SHIPMENTS];
        let mut sums = added(*totals, Totals::default())?;
        let mut rows = book.rows();
        for (row, head) in filled.iter_mut().zip(heads) {
            let (own, later) = rows.split_at(orders(head));
            *row = sheet_row(head, own);
            sums = added(sums, row.sums())?;
            rows = later;
        }
        table.copy_from_slice(&filled[..table.len()]);
        *totals = sums;
        Ok(table.len())
    }
}

/// The row of a shipment.
fn sheet_row(head: &Head, rows: Rows) -> SheetRow {
    let is_paired = head[STAGE] == stage::PAIRED;
    let (needs, held) = if is_paired {
        (
            [sum(rows.amounts), sum(rows.fees)],
            [
                held(rows.amounts, rows.states, holds_amount),
                held(rows.fees, rows.states, holds_fee),
            ],
        )
    } else {
        ([0; 2], [0; 2])
    };
    let sums = |money, at: usize| {
        let accepted = accepted(head, money);
        let free = accepted - needs[at] - returned(head, money);
        [accepted, held[at], free, accepted - held[at] - free]
    };
    let ([k_accepted, k_held, k_free, k_left], [o_accepted, o_held, o_free, o_left]) =
        (sums(Money::K, 0).map(Amount), sums(Money::O, 1).map(Fee));
    SheetRow {
        id: std::array::from_fn(|at| head[at]),
        id_len: u64::from(head[17]),
        k_accepted,
        k_held,
        k_free,
        k_left,
        o_accepted,
        o_held,
        o_free,
        o_left,
    }
}

/// Does an order of a Paired shipment in this state hold its amount?
fn holds_amount(state: u8) -> bool {
    state <= state::POSTED || state >= state::UNDELIVERED && state & state::K_WAITS != 0
}

/// Does it hold its fee?
fn holds_fee(state: u8) -> bool {
    state == state::OPEN || state >= state::WITHDRAWN && state & state::O_WAITS != 0
}

/// What the orders of a Paired shipment hold of a money.
fn held(column: &[Grosze], states: &[u8], holds: impl Fn(u8) -> bool) -> u64 {
    let orders = column.iter().zip(states);
    orders
        .map(|(grosze, state)| u64::from(holds(*state)) * number(*grosze))
        .sum()
}

/// The totals with a row's sums, none above the cap (26).
fn added(totals: Totals, sums: Totals) -> Result<Totals, Refusal> {
    let add = |total: u64, sum: u64| {
        let total = total.checked_add(sum).filter(|total| *total <= TOTAL_CAP);
        total.ok_or(26u64)
    };
    let amount = |total: Amount, sum: Amount| add(total.0, sum.0).map(Amount);
    let fee = |total: Fee, sum: Fee| add(total.0, sum.0).map(Fee);
    Ok(Totals {
        k_accepted: amount(totals.k_accepted, sums.k_accepted)?,
        k_held: amount(totals.k_held, sums.k_held)?,
        k_free: amount(totals.k_free, sums.k_free)?,
        k_left: amount(totals.k_left, sums.k_left)?,
        o_accepted: fee(totals.o_accepted, sums.o_accepted)?,
        o_held: fee(totals.o_held, sums.o_held)?,
        o_free: fee(totals.o_free, sums.o_free)?,
        o_left: fee(totals.o_left, sums.o_left)?,
    })
}
