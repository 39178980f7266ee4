//! The calls on a shipment and on one order.

use super::layout::{
    accepted, identifier_bytes, is_faulty, name_bytes, number, stage, state, store_accepted, sum,
    Head, Own, Parts, GO_AHEAD, STAGE,
};
use super::name::read_title;
use super::sound::is_sound;
use super::{Book, Refusal, SUM_CAP};
use buntingraft::{Amount, Fee, Money, Pairing};

impl<const SOUND: bool> Book<'_, SOUND> {
    /// The parts of the memory, if it is a sound book (10).
    pub(super) fn parts(&mut self) -> Result<Parts<'_>, Refusal> {
        let parts = Parts::of(self.0).ok_or(10u64)?;
        if SOUND && !is_sound(&parts) {
            return Err(10);
        }
        Ok(parts)
    }

    /// The head and the rows of a shipment (10, 13).
    pub(super) fn shipment(&mut self, id: &[u8]) -> Result<(&mut Head, Own<'_>), Refusal> {
        let parts = self.parts()?;
        parts.find(&identifier_bytes(id).ok_or(13u64)?)
    }

    /// The head and the rows of a shipment that is Waiting (10, 13, 15).
    fn waiting(&mut self, id: &[u8]) -> Result<(&mut Head, Own<'_>), Refusal> {
        let (head, rows) = self.shipment(id)?;
        if head[STAGE] != stage::WAITING {
            return Err(15);
        }
        Ok((head, rows))
    }

    /// Takes a bank transfer for the shipment and the money of its title.
    pub fn transfer(&mut self, title: &[u8], amount: u64) -> Result<(), Refusal> {
        let parts = self.parts()?;
        let (name, money) = read_title(title)?;
        if !(1..=SUM_CAP).contains(&amount) {
            return Err(12);
        }
        let (head, _) = parts.find(&name_bytes(&name))?;
        let total = accepted(head, money) + amount;
        if total > SUM_CAP {
            return Err(14);
        }
        store_accepted(head, money, total);
        Ok(())
    }

    /// Takes the go-ahead for a shipment with faulty orders.
    pub fn go_ahead(&mut self, id: &[u8]) -> Result<(), Refusal> {
        let (head, rows) = self.waiting(id)?;
        if !rows.states.iter().any(is_faulty) {
            return Err(16);
        }
        if head[GO_AHEAD] == 1 {
            return Err(17);
        }
        head[GO_AHEAD] = 1;
        Ok(())
    }

    /// Pairs the shipment with its transfers, if they cover its needs.
    pub fn pair(&mut self, id: &[u8]) -> Result<Pairing, Refusal> {
        let (head, rows) = self.waiting(id)?;
        if head[GO_AHEAD] == 0 && rows.states.iter().any(is_faulty) {
            return Err(18);
        }
        let k = sum(rows.amounts).saturating_sub(accepted(head, Money::K));
        let o = sum(rows.fees).saturating_sub(accepted(head, Money::O));
        if k > 0 || o > 0 {
            return Ok(Pairing::Short {
                k: Amount(k),
                o: Fee(o),
            });
        }
        head[STAGE] = stage::PAIRED;
        Ok(Pairing::Paired)
    }

    /// Closes the shipment.
    pub fn close(&mut self, id: &[u8]) -> Result<(), Refusal> {
        let (head, _) = self.waiting(id)?;
        head[STAGE] = stage::CLOSED;
        Ok(())
    }

    /// Moves an order from a state to another, and gives back its fee and its
    /// amount (10, 13, 19, 20, 21).
    fn advance(
        &mut self,
        id: &[u8],
        order: u64,
        from: u8,
        to: u8,
    ) -> Result<(Fee, Amount), Refusal> {
        let (head, rows) = self.shipment(id)?;
        if head[STAGE] != stage::PAIRED {
            return Err(19);
        }
        let index = usize::try_from(order).map_err(|_| 20u64)?.checked_sub(1);
        let index = index.filter(|index| *index < rows.states.len());
        let index = index.ok_or(20u64)?;
        if rows.states[index] != from {
            return Err(21);
        }
        rows.states[index] = to;
        let (fee, amount) = (rows.fees[index], rows.amounts[index]);
        Ok((Fee(number(fee)), Amount(number(amount))))
    }

    /// Posts an Open order and answers the fee that is earned.
    pub fn post(&mut self, id: &[u8], order: u64) -> Result<Fee, Refusal> {
        let (fee, _) = self.advance(id, order, state::OPEN, state::POSTED)?;
        Ok(fee)
    }

    /// Pays a Posted order and answers its amount.
    pub fn pay(&mut self, id: &[u8], order: u64) -> Result<Amount, Refusal> {
        let (_, amount) = self.advance(id, order, state::POSTED, state::PAID)?;
        Ok(amount)
    }

    /// Marks a Posted order Undelivered.
    pub fn mark_undelivered(&mut self, id: &[u8], order: u64) -> Result<(), Refusal> {
        let undelivered = state::UNDELIVERED + state::K_WAITS;
        self.advance(id, order, state::POSTED, undelivered)?;
        Ok(())
    }

    /// Withdraws an Open order.
    pub fn withdraw(&mut self, id: &[u8], order: u64) -> Result<(), Refusal> {
        let withdrawn = state::WITHDRAWN + state::K_WAITS + state::O_WAITS;
        self.advance(id, order, state::OPEN, withdrawn)?;
        Ok(())
    }
}
