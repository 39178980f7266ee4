//! Demand 3: transfers accepted are what the orders hold, the free money, and
//! all that left; summed from the archive's answers alone, for every shipment
//! and either money, after every call. The sheet's rows say the same.

use crate::naming::{position_named, MONEYS};
use crate::sheet::sums_of;
use buntingraft::SheetRow;
use reference::{Answer, Book, Call, Money, Shipment, Stage};
use std::collections::BTreeSet;

/// What a shipment's calls were answered so far, in one money.
#[derive(Clone, Copy, Default)]
struct Sums {
    accepted: u64,
    left: u64,
}

/// The sums of every shipment in order of intake, and which orders' money has
/// left.
#[derive(Default)]
pub struct Ledger {
    sums: Vec<[Sums; 2]>,
    gone: BTreeSet<(usize, usize, usize)>,
}

impl Ledger {
    /// Enters a call with its answer, the books that the lent bytes held before
    /// and after it, and the sheet's rows after it; or says what of demand 3 it
    /// breaks.
    pub fn enter(
        &mut self,
        call: &Call,
        answer: &Answer,
        before: &Book,
        after: &Book,
        rows: &[SheetRow],
    ) -> Result<(), String> {
        self.sums.resize(after.shipments.len(), Default::default());
        let named = position_named(call, after);
        others_stay(named, before, after)?;
        if let Some(named) = named {
            self.count(named, call, answer, before, after)?;
        }
        self.balance(after, rows)
    }

    /// Adds what the answer says to the sums of the shipment that the call
    /// names.
    fn count(
        &mut self,
        named: usize,
        call: &Call,
        answer: &Answer,
        before: &Book,
        after: &Book,
    ) -> Result<(), String> {
        match (call, answer) {
            (Call::Transfer { title, amount }, Answer::Done) => {
                let money = usize::from(title.ends_with(b"-O"));
                self.sums[named][money].accepted += amount;
            }
            (Call::Post { order, .. }, Answer::FeeEarned(fee)) => {
                self.leaves(named, 1, *fee);
                self.leaves_once(named, *order as usize - 1, 1)?;
            }
            (Call::Pay { order, .. }, Answer::AmountPaid(amount)) => {
                self.leaves(named, 0, *amount);
                self.leaves_once(named, *order as usize - 1, 0)?;
            }
            (Call::Return { money, .. }, Answer::Returned { sum, count }) => {
                let money = *money as usize;
                let (then, now) = (&before.shipments[named], &after.shipments[named]);
                let ended = waits_ended(then, now, MONEYS[money]);
                self.leaves(named, money, *sum);
                if ended.len() as u64 != *count {
                    return Err(format!("{count} orders told, {} waits ended", ended.len()));
                }
                for order in ended {
                    self.leaves_once(named, order, money)?;
                }
            }
            _ => {}
        }
        Ok(())
    }

    /// A sum of a shipment's money leaves.
    fn leaves(&mut self, shipment: usize, money: usize, sum: u64) {
        self.sums[shipment][money].left += sum;
    }

    /// An order's money leaves, which it may do once.
    fn leaves_once(&mut self, shipment: usize, order: usize, money: usize) -> Result<(), String> {
        if self.gone.insert((shipment, order, money)) {
            return Ok(());
        }
        let money = MONEYS[money];
        Err(format!(
            "{money:?} of order {} leaves a second time",
            order + 1
        ))
    }

    /// Is every shipment's free money at least zero, is accepted what is held,
    /// free and left together in either money, and has the sheet these numbers?
    fn balance(&self, book: &Book, rows: &[SheetRow]) -> Result<(), String> {
        for ((shipment, sums), row) in book.shipments.iter().zip(&self.sums).zip(rows) {
            let on_the_sheet = sums_of(&row.sums()).map(i128::from);
            for (place, money) in MONEYS.into_iter().enumerate() {
                let (held, free) = (i128::from(shipment.held(money)), free(shipment, money));
                let [accepted, left] = [sums[place].accepted, sums[place].left].map(i128::from);
                let balanced = free >= 0 && accepted == held + free + left;
                let row = &on_the_sheet[4 * place..][..4];
                if !balanced || row != [accepted, held, free, left] {
                    let id = String::from_utf8_lossy(&shipment.name.identifier);
                    return Err(format!(
                        "{id} {money:?}: accepted {accepted}, held {held}, free {free}, \
                         left {left}; the sheet has {row:?}"
                    ));
                }
            }
        }
        Ok(())
    }
}

/// "Free money is transfers accepted, less the need once Paired, less surplus
/// returned.", below zero where it is so.
fn free(shipment: &Shipment, money: Money) -> i128 {
    let need = match shipment.stage {
        Stage::Paired => shipment.need(money),
        Stage::Waiting | Stage::Closed => 0,
    };
    i128::from(shipment.accepted(money)) - i128::from(need) - i128::from(shipment.returned(money))
}

/// "calls for other shipments move none of these numbers": is every shipment
/// but the named one as it was?
fn others_stay(named: Option<usize>, before: &Book, after: &Book) -> Result<(), String> {
    for (place, shipment) in after.shipments.iter().enumerate() {
        if Some(place) != named && before.shipments.get(place) != Some(shipment) {
            return Err(format!("shipment {} is not named, but moved", place + 1));
        }
    }
    Ok(())
}

/// The orders whose wait for a money ended between two points.
fn waits_ended(then: &Shipment, now: &Shipment, money: Money) -> Vec<usize> {
    let rows = then.rows.iter().zip(&now.rows).enumerate();
    rows.filter(|(_, (then, now))| then.state.waits(money) && !now.state.waits(money))
        .map(|(order, _)| order)
        .collect()
}
