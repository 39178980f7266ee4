//! The intake of an order file.

use super::header::{ask_profile, open};
use super::layout::{name_bytes, new_head, state, Parts, MOST_ROWS};
use super::records::{read_records, Order};
use super::{Book, Refusal, RATE_CAP};
use buntingraft::{Accepted, Profile};

impl<const SOUND: bool> Book<'_, SOUND> {
    /// Takes in an order file as a Waiting shipment.
    pub fn intake(
        &mut self,
        profile: &Profile,
        name: &[u8],
        file: &[u8],
    ) -> Result<Accepted, Refusal> {
        ask_profile(profile)?;
        let book = self.parts().map_err(|_| 900u64)?;
        let opened = open(name, file)?;
        let name = name_bytes(&opened.name);
        if book.shipments().iter().any(|head| head[..18] == name[..18]) {
            return Err(101);
        }
        let stated = opened.ask_rest_of_header(profile.today as u32)?;
        let kind = usize::from(opened.name.kind);
        let (flat, rate) = (profile.flat[kind], profile.rates[kind]);
        let orders = read_records(opened.records, &stated, profile.fields as usize)?;
        orders.ask_fees(flat, rate)?;
        let used = book.row_count();
        let Some(head) = book.heads.get_mut(usize::from(*book.count)) else {
            return Err(903);
        };
        if used + orders.count > MOST_ROWS {
            return Err(904);
        }
        *head = new_head(&name, flat, rate, orders.count);
        *book.count += 1;
        store_orders(book, used, orders.kept(), flat, rate);
        let faulty = orders.kept().iter().filter(|order| order.fault > 0).count();
        Ok(Accepted {
            orders: orders.count as u64,
            faulty: faulty as u64,
        })
    }
}

/// Stores orders behind those that the book has, with their fees.
fn store_orders(book: Parts, used: usize, orders: &[Order], flat: u64, rate: u64) {
    let own = used..used + orders.len();
    for (place, order) in book.amounts[own.clone()].iter_mut().zip(orders) {
        *place = order.amount.to_le_bytes();
    }
    let fees = book.fees[own.clone()].iter_mut();
    let remainders = book.remainders[own.clone()].iter_mut();
    for ((fee, remainder), order) in fees.zip(remainders).zip(orders) {
        let product = u64::from(order.amount) * rate;
        *fee = ((flat + product / RATE_CAP) as u32).to_le_bytes();
        *remainder = ((product % RATE_CAP) as u16).to_le_bytes();
    }
    for (place, order) in book.states[own].iter_mut().zip(orders) {
        *place = state_of(order);
    }
}

/// The state of an order as it is taken in.
fn state_of(order: &Order) -> u8 {
    match order.fault {
        0 => state::OPEN,
        fault => state::faulty(fault),
    }
}
