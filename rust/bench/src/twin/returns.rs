//! The four returns.

use super::layout::{
    accepted, number, returned, stage, state, store_returned, sum, Head, Own, STAGE,
};
use super::{Book, Refusal};
use buntingraft::{Money, Returned, Route};

impl<const SOUND: bool> Book<'_, SOUND> {
    /// Gives back all that there is of a money on a route.
    pub fn give_back(
        &mut self,
        id: &[u8],
        route: Route,
        money: Money,
    ) -> Result<Returned, Refusal> {
        let (head, rows) = self.shipment(id)?;
        if route == Route::Zwr {
            return give_back_surplus(head, &rows, money);
        }
        if head[STAGE] != stage::PAIRED {
            return Err(19);
        }
        if route == Route::Zpr && money == Money::O {
            return Err(22);
        }
        give_back_waiting(rows, route, money)
    }
}

/// Gives back the free money (24, 23).
fn give_back_surplus(head: &mut Head, rows: &Own, money: Money) -> Result<Returned, Refusal> {
    let need = match head[STAGE] {
        stage::WAITING => return Err(24),
        stage::PAIRED => sum(rows.column(money)),
        _ => 0,
    };
    let before = returned(head, money);
    let sum = accepted(head, money) - need - before;
    if sum == 0 {
        return Err(23);
    }
    store_returned(head, money, before + sum);
    Ok(Returned { sum, count: 0 })
}

/// The first and the last state whose waits a route ends.
fn states(route: Route) -> (u8, u8) {
    match route {
        Route::Zpr => (state::UNDELIVERED, state::UNDELIVERED + state::K_WAITS),
        Route::Zzr => (
            state::WITHDRAWN,
            state::WITHDRAWN + state::K_WAITS + state::O_WAITS,
        ),
        Route::Opr | Route::Zwr => state::FAULTY.into_inner(),
    }
}

/// Gives back what waits in the orders of a route (23). Fees of 0 go with others,
/// but wait on where there is no other.
fn give_back_waiting(rows: Own, route: Route, money: Money) -> Result<Returned, Refusal> {
    let (first, last) = states(route);
    let wait = match money {
        Money::K => state::K_WAITS,
        Money::O => state::O_WAITS,
    };
    let waits = |state: u8| (first..=last).contains(&state) && state & wait != 0;
    let (mut sum, mut count) = (0, 0);
    for (grosze, state) in rows.column(money).iter().zip(&*rows.states) {
        let waits = u64::from(waits(*state));
        sum += waits * number(*grosze);
        count += waits;
    }
    if sum == 0 {
        return Err(23);
    }
    for state in rows.states {
        *state -= if waits(*state) { wait } else { 0 };
    }
    Ok(Returned { sum, count })
}
