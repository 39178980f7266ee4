//! Where the fields of a book lie in the lent bytes (docs/LAYOUT.md).

use super::name::Name;
use super::Refusal;
use buntingraft::{Money, BOOK_BYTES};

/// The most orders of a book.
pub const MOST_ROWS: usize = 2_048;

/// The bytes before the heads.
const FRONT: usize = 64;

/// The bytes before the amounts, the fees, the remainders and the states.
const AMOUNTS: usize = 2_176;
const FEES: usize = 10_368;
const REMAINDERS: usize = 18_560;
const STATES: usize = 22_656;

/// A shipment's bytes.
pub type Head = [u8; 66];

/// An order's amount or fee, as bytes.
pub type Grosze = [u8; 4];

/// What the division of an order's fee leaves, as bytes.
pub type Remainder = [u8; 2];

/// The state of an order, as its byte.
pub mod state {
    /// Nothing happened yet.
    pub const OPEN: u8 = 0;
    /// On its way.
    pub const POSTED: u8 = 1;
    /// Paid out.
    pub const PAID: u8 = 2;
    /// Undelivered, nothing waits.
    pub const UNDELIVERED: u8 = 4;
    /// Withdrawn, nothing waits.
    pub const WITHDRAWN: u8 = 8;
    /// What is added where K waits.
    pub const K_WAITS: u8 = 1;
    /// What is added where O waits.
    pub const O_WAITS: u8 = 2;
    /// The first and the last state of a Faulty order.
    pub const FAULTY: std::ops::RangeInclusive<u8> = 12..=51;

    /// Faulty with this fault, both moneys waiting.
    pub fn faulty(fault: u8) -> u8 {
        8 + 4 * fault + K_WAITS + O_WAITS
    }
}

/// The stage of a shipment, as its byte.
pub mod stage {
    /// Since intake.
    pub const WAITING: u8 = 0;
    /// Its money and its orders are paired.
    pub const PAIRED: u8 = 1;
    /// It will not be paired.
    pub const CLOSED: u8 = 2;
}

/// Where the stage lies in a head.
pub const STAGE: usize = 28;

/// Where the go-ahead lies in a head.
pub const GO_AHEAD: usize = 29;

/// The columns of some orders, to be read.
#[derive(Clone, Copy)]
pub struct Rows<'m> {
    /// The amounts.
    pub amounts: &'m [Grosze],
    /// The fees.
    pub fees: &'m [Grosze],
    /// What the division of each fee leaves.
    pub remainders: &'m [Remainder],
    /// The bytes of state.
    pub states: &'m [u8],
}

impl<'m> Rows<'m> {
    /// Those of the first so many orders, and those of the others.
    pub fn split_at_checked(self, orders: usize) -> Option<(Rows<'m>, Rows<'m>)> {
        let (amounts, later_amounts) = self.amounts.split_at_checked(orders)?;
        let (fees, later_fees) = self.fees.split_at_checked(orders)?;
        let (remainders, later_remainders) = self.remainders.split_at_checked(orders)?;
        let (states, later_states) = self.states.split_at_checked(orders)?;
        let own = Rows {
            amounts,
            fees,
            remainders,
            states,
        };
        let later = Rows {
            amounts: later_amounts,
            fees: later_fees,
            remainders: later_remainders,
            states: later_states,
        };
        Some((own, later))
    }

    /// [`split_at_checked`](Rows::split_at_checked) of a sound book.
    pub fn split_at(self, orders: usize) -> (Rows<'m>, Rows<'m>) {
        self.split_at_checked(orders)
            .expect("a sound book has a row for each order")
    }
}

/// The columns of a shipment's orders, of which a call changes the states alone.
pub struct Own<'m> {
    /// The amounts.
    pub amounts: &'m [Grosze],
    /// The fees.
    pub fees: &'m [Grosze],
    /// The bytes of state.
    pub states: &'m mut [u8],
}

impl Own<'_> {
    /// The column in which a money's grosze are.
    pub fn column(&self, money: Money) -> &[Grosze] {
        match money {
            Money::K => self.amounts,
            Money::O => self.fees,
        }
    }
}

/// The parts of a book's memory.
pub struct Parts<'m> {
    /// The number of shipments.
    pub count: &'m mut u8,
    /// The heads, used or not.
    pub heads: &'m mut [Head],
    /// The amounts, used or not.
    pub amounts: &'m mut [Grosze],
    /// The fees, used or not.
    pub fees: &'m mut [Grosze],
    /// The remainders, used or not.
    pub remainders: &'m mut [Remainder],
    /// The bytes of state, used or not.
    pub states: &'m mut [u8],
}

impl<'m> Parts<'m> {
    /// Parts memory that is long enough for a book.
    pub fn of(memory: &'m mut [u8]) -> Option<Self> {
        let book = memory.first_chunk_mut::<BOOK_BYTES>()?;
        let (front, rest) = book.split_at_mut(AMOUNTS);
        let (count, heads) = front.split_at_mut(FRONT);
        let (amounts, rest) = rest.split_at_mut(FEES - AMOUNTS);
        let (fees, rest) = rest.split_at_mut(REMAINDERS - FEES);
        let (remainders, states) = rest.split_at_mut(STATES - REMAINDERS);
        Some(Parts {
            count: &mut count[0],
            heads: heads.as_chunks_mut().0,
            amounts: amounts.as_chunks_mut().0,
            fees: fees.as_chunks_mut().0,
            remainders: remainders.as_chunks_mut().0,
            states,
        })
    }

    /// The columns, to be read.
    pub fn rows(&self) -> Rows<'_> {
        Rows {
            amounts: self.amounts,
            fees: self.fees,
            remainders: self.remainders,
            states: self.states,
        }
    }

    /// The heads in use.
    pub fn shipments(&self) -> &[Head] {
        &self.heads[..usize::from(*self.count)]
    }

    /// The number of rows in use.
    pub fn row_count(&self) -> usize {
        self.shipments().iter().map(orders).sum()
    }

    /// The head and the rows of the shipment whose head starts with an
    /// identifier's bytes or with a name's (13).
    pub fn find<const N: usize>(self, start: &[u8; N]) -> Result<(&'m mut Head, Own<'m>), Refusal> {
        let mut shipments = self.shipments().iter();
        let at = shipments.position(|head| head.starts_with(start));
        let at = at.ok_or(13u64)?;
        let from: usize = self.heads[..at].iter().map(orders).sum();
        let head = &mut self.heads[at];
        let own = from..from + orders(head);
        let rows = Own {
            amounts: &self.amounts[own.clone()],
            fees: &self.fees[own.clone()],
            states: &mut self.states[own],
        };
        Ok((head, rows))
    }
}

/// Two bytes of a head as a number.
fn two(head: &Head, at: usize) -> u16 {
    u16::from_le_bytes([head[at], head[at + 1]])
}

/// Four bytes of a head as a number.
fn four(head: &Head, at: usize) -> u32 {
    u32::from_le_bytes(std::array::from_fn(|byte| head[at + byte]))
}

/// Eight bytes of a head as a number.
fn eight(head: &Head, at: usize) -> u64 {
    u64::from_le_bytes(std::array::from_fn(|byte| head[at + byte]))
}

/// The shipment's identifier.
pub fn identifier(head: &Head) -> &[u8] {
    &head[..17][..usize::from(head[17].min(17))]
}

/// The date of the shipment's name.
pub fn date(head: &Head) -> u32 {
    four(head, 18)
}

/// `A` or `B`.
pub fn payment(head: &Head) -> u8 {
    head[22]
}

/// The benefit kind.
pub fn kind(head: &Head) -> u8 {
    head[23]
}

/// The flat part of the shipment's fees.
pub fn flat(head: &Head) -> u32 {
    four(head, 24)
}

/// The rate of the shipment's fees.
pub fn rate(head: &Head) -> u16 {
    two(head, 64)
}

/// The number of the shipment's orders.
pub fn orders(head: &Head) -> usize {
    usize::from(two(head, 30))
}

/// Where the transfers accepted of a money lie.
fn accepted_at(money: Money) -> usize {
    match money {
        Money::K => 32,
        Money::O => 40,
    }
}

/// The transfers accepted of a money.
pub fn accepted(head: &Head, money: Money) -> u64 {
    eight(head, accepted_at(money))
}

/// Stores the transfers accepted of a money.
pub fn store_accepted(head: &mut Head, money: Money, sum: u64) {
    head[accepted_at(money)..][..8].copy_from_slice(&sum.to_le_bytes());
}

/// The surplus returned of a money.
pub fn returned(head: &Head, money: Money) -> u64 {
    eight(head, accepted_at(money) + 16)
}

/// Stores the surplus returned of a money.
pub fn store_returned(head: &mut Head, money: Money, sum: u64) {
    head[accepted_at(money) + 16..][..8].copy_from_slice(&sum.to_le_bytes());
}

/// The bytes of an identifier with its length; none where it is too long.
pub fn identifier_bytes(id: &[u8]) -> Option<[u8; 18]> {
    let mut bytes = [0; 18];
    bytes[..17].get_mut(..id.len())?.copy_from_slice(id);
    bytes[17] = id.len() as u8;
    Some(bytes)
}

/// The bytes of a whole name.
pub fn name_bytes(name: &Name) -> [u8; 24] {
    let mut bytes = [0; 24];
    bytes[..name.identifier.len()].copy_from_slice(name.identifier);
    bytes[17] = name.identifier.len() as u8;
    bytes[18..22].copy_from_slice(&name.date.to_le_bytes());
    bytes[22] = name.payment;
    bytes[23] = name.kind;
    bytes
}

/// The head of a shipment as it is taken in.
pub fn new_head(name: &[u8; 24], flat: u64, rate: u64, orders: usize) -> Head {
    let mut head = [0; 66];
    head[..24].copy_from_slice(name);
    head[24..28].copy_from_slice(&(flat as u32).to_le_bytes());
    head[30..32].copy_from_slice(&(orders as u16).to_le_bytes());
    head[64..].copy_from_slice(&(rate as u16).to_le_bytes());
    head
}

/// The sum of a column.
pub fn sum(column: &[Grosze]) -> u64 {
    column.iter().map(|grosze| number(*grosze)).sum()
}

/// An amount or a fee as a number.
pub fn number(grosze: Grosze) -> u64 {
    u64::from(u32::from_le_bytes(grosze))
}

/// Is it the state of a Faulty order?
pub fn is_faulty(state: &u8) -> bool {
    state::FAULTY.contains(state)
}
