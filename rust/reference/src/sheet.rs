//! "The balance sheet": a row for each shipment, and totals.

use crate::book::{Book, Money, Shipment, Stage, State};
use crate::MOST_TOTAL;

/// "accepted, held, free, left, for K and for O": the four of K first.
pub type Sums = [u64; 8];

/// "one row per shipment: identifier; accepted, held, free, left, for K and for
/// O."
#[derive(Clone, Debug, Default, PartialEq, Eq)]
pub struct SheetRow {
    /// The shipment's identifier.
    pub identifier: Vec<u8>,
    /// Its eight sums.
    pub sums: Sums,
}

impl Shipment {
    /// "K left is [...], plus K surplus returned. O left is [...], plus O
    /// surplus returned."
    pub fn left(&self, money: Money) -> u64 {
        let mut left = 0;
        for row in &self.rows {
            if self.counts_as_left(row.state, money) {
                left += row.worth(money);
            }
        }
        left + self.returned(money)
    }

    /// Does an order in this state count with this money in what left?
    fn counts_as_left(&self, state: State, money: Money) -> bool {
        let in_a_paired_shipment = self.stage == Stage::Paired;
        let no_longer_waits = !state.waits(money);
        match (money, state) {
            // "K left is the amounts of Paid orders,"
            (Money::K, State::Paid) => true,
            // "plus those of Faulty, Undelivered and Withdrawn orders in a
            // Paired shipment whose K no longer waits"
            (
                Money::K,
                State::Faulty { .. } | State::Undelivered { .. } | State::Withdrawn { .. },
            ) => in_a_paired_shipment && no_longer_waits,
            (Money::K, State::Open | State::Posted) => false,
            // "O left is F for each Posted, Paid or Undelivered order," each
            // with its own fee (document 02)
            (Money::O, State::Posted | State::Paid | State::Undelivered { .. }) => true,
            // "plus F for each Faulty or Withdrawn one in a Paired shipment
            // whose O no longer waits"
            (Money::O, State::Faulty { .. } | State::Withdrawn { .. }) => {
                in_a_paired_shipment && no_longer_waits
            }
            (Money::O, State::Open) => false,
        }
    }

    /// The shipment's row of the sheet.
    fn sheet_row(&self) -> SheetRow {
        let [k, o] = [Money::K, Money::O];
        SheetRow {
            identifier: self.name.identifier.clone(),
            sums: [
                self.accepted(k),
                self.held(k),
                self.free(k),
                self.left(k),
                self.accepted(o),
                self.held(o),
                self.free(o),
                self.left(o),
            ],
        }
    }
}

impl Book {
    /// The sheet of this book: fills a lent table, adds to lent totals, and
    /// gives the number of rows filled. A refusal leaves both as they were.
    pub fn sheet(&self, table: &mut [SheetRow], totals: &mut Sums) -> Result<usize, u32> {
        // "After 10"
        if !self.is_sound() {
            return Err(10);
        }
        // "table has a row for each shipment? 25"
        if table.len() < self.shipments.len() {
            return Err(25);
        }
        // "It adds each row's eight sums to a lent record of totals."
        let rows: Vec<SheetRow> = self.shipments.iter().map(Shipment::sheet_row).collect();
        let added = add(totals, &rows);
        // "After adding, no total above 999,999,999,999,999? 26"
        if added.iter().any(|total| *total > u128::from(MOST_TOTAL)) {
            return Err(26);
        }
        *totals = added.map(|total| total as u64);
        // "Rows past the last are untouched."
        table[..rows.len()].clone_from_slice(&rows);
        Ok(rows.len())
    }
}

/// The totals with the sums of these rows, which may be more than a `u64` has.
fn add(totals: &Sums, rows: &[SheetRow]) -> [u128; 8] {
    let mut added = totals.map(u128::from);
    for row in rows {
        for (total, sum) in added.iter_mut().zip(row.sums) {
            *total += u128::from(sum);
        }
    }
    added
}
