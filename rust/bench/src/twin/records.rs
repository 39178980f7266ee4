//! The records of an order file: one walk judges them and keeps their orders.

use super::faults::first_fault;
use super::header::Stated;
use super::layout::MOST_ROWS;
use super::lines::{cut, line};
use super::text::{grosze, number};
use super::{Refusal, ORDER_CAP, RATE_CAP};
use std::str::Split;

/// An order as its record states it.
#[derive(Clone, Copy, Default)]
pub struct Order {
    /// Its amount.
    pub amount: u32,
    /// Its first fault, or 0.
    pub fault: u8,
}

/// The orders of a file.
pub struct Orders {
    /// How many there are.
    pub count: usize,
    sum: u64,
    most: u64,
    are_amounts: bool,
    kept: [Order; MOST_ROWS],
}

impl Orders {
    /// As many of the orders as a book can hold.
    pub fn kept(&self) -> &[Order] {
        &self.kept[..self.count.min(MOST_ROWS)]
    }

    /// Adds the order of a record. Behind the last that a book can hold, an
    /// order is not asked for its fault.
    fn add(&mut self, record: &[&str]) {
        let amount = grosze(record[2], 7).unwrap_or(0);
        self.are_amounts &= amount > 0;
        self.sum += amount;
        self.most = self.most.max(amount);
        if let Some(place) = self.kept.get_mut(self.count) {
            *place = Order {
                amount: amount as u32,
                fault: first_fault(record),
            };
        }
        self.count += 1;
    }

    /// Asks whether each order's fee is in range (906): the largest amount has the
    /// largest.
    pub fn ask_fees(&self, flat: u64, rate: u64) -> Result<(), Refusal> {
        if flat + self.most * rate / RATE_CAP > ORDER_CAP {
            return Err(906);
        }
        Ok(())
    }

    /// Asks the questions 902 to 132.
    fn ask(&self, stated: &Stated) -> Result<(), Refusal> {
        if !self.are_amounts {
            return Err(902);
        }
        if self.count as u64 != stated.orders {
            return Err(129);
        }
        if self.sum != stated.sum {
            return Err(132);
        }
        Ok(())
    }
}

/// Reads the records, parted at LF, and asks them the questions 901 to 132.
pub fn read_records(
    pieces: Split<char>,
    stated: &Stated,
    fields: usize,
) -> Result<Orders, Refusal> {
    let mut orders = Orders {
        count: 0,
        sum: 0,
        most: 0,
        are_amounts: true,
        kept: [Order::default(); MOST_ROWS],
    };
    let mut table = [""; 32];
    let record = &mut table[..fields];
    let mut pieces = pieces.peekable();
    while let Some(piece) = pieces.next() {
        let line = line(piece, pieces.peek().is_none()).ok_or(901u64)?;
        if !cut(line, record) || !is_numbered(record, orders.count + 1) {
            return Err(901);
        }
        orders.add(record);
    }
    orders.ask(stated)?;
    Ok(orders)
}

/// Is the first field `2`, and the second this number?
fn is_numbered(record: &[&str], number_of_record: usize) -> bool {
    record[0] == "2" && number(record[1], 1, 6) == Some(number_of_record as u64)
}
