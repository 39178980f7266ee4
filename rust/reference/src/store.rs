//! "Keep the book in a file" (document 02, A4): the stored bytes of a book, and
//! the book of stored bytes. The bytes of a body and the codes of a state are
//! the library's; all other words quoted here are document 02's.

use crate::book::{Book, Row, Shipment, Stage, State, Waits};
use crate::fee::{Fee, Tariff};
use crate::name::Name;
use crate::output::write_to;
use crate::{BOOK_BYTES, MOST_SHIPMENTS};

/// "a form byte, 1, which each later change of the record raises by 1": A5's
/// flat part, rate, fees and remainders are such a change.
const FORM: u8 = 2;

/// The bytes of an identifier, with the zeros behind it.
const IDENTIFIER: usize = 17;

impl Book {
    /// The stored bytes of this book. (Of a sound one: numbers of another may be
    /// longer than their fields.)
    pub fn stored(&self) -> Vec<u8> {
        let bodies: Vec<Vec<u8>> = self.shipments.iter().map(body).collect();
        let mut stored = vec![FORM, bodies.len() as u8];
        // "then a contents table with each shipment's start and length"
        let mut start = stored.len() + 8 * bodies.len();
        for body in &bodies {
            stored.extend((start as u32).to_le_bytes());
            stored.extend((body.len() as u32).to_le_bytes());
            start += body.len();
        }
        // "then the bodies in the same order without gaps"
        stored.extend(bodies.concat());
        stored
    }

    /// The sound book whose stored bytes these are, if there is one.
    pub fn unstored(bytes: &[u8]) -> Option<Book> {
        let mut table = Unread(bytes);
        // "Only the newest form loads."
        if table.number(1)? != u64::from(FORM) {
            return None;
        }
        let count = table.number(1)? as usize;
        if count > MOST_SHIPMENTS {
            return None;
        }
        let mut next = 2 + 8 * count;
        let mut shipments = Vec::new();
        for _ in 0..count {
            let start = table.number(4)? as usize;
            let length = table.number(4)? as usize;
            // "in the same order without gaps"
            if start != next {
                return None;
            }
            next = start + length;
            shipments.push(shipment(bytes.get(start..next)?)?);
        }
        let book = Book { shipments };
        (next == bytes.len() && book.is_sound()).then_some(book)
    }

    /// Storing: gives the stored bytes, or 10; "then 30" is for
    /// [`Book::store_into`].
    pub fn store(&self) -> Result<Vec<u8>, u32> {
        // "Storing asks 10"
        if !self.is_sound() {
            return Err(10);
        }
        Ok(self.stored())
    }

    /// [`Book::store`] into a lent output: gives the length written, or 10 or
    /// 30.
    pub fn store_into(&self, output: &mut [u8]) -> Result<usize, u32> {
        write_to(output, &self.store()?)
    }

    /// Loading into memory of so many bytes, which held this book or anything
    /// else: the memory then holds the stored book.
    pub fn load(&mut self, memory: usize, stored: &[u8]) -> Result<(), u32> {
        // "32 when the bytes aren't a stored sound book, asked first on loading"
        let book = Book::unstored(stored).ok_or(32u32)?;
        // "then 30 when the book's memory is too short"
        if memory < BOOK_BYTES {
            return Err(30);
        }
        *self = book;
        Ok(())
    }
}

/// The body of a shipment.
fn body(shipment: &Shipment) -> Vec<u8> {
    let name = &shipment.name;
    let mut body = name.identifier.clone();
    body.resize(IDENTIFIER, 0);
    body.push(name.identifier.len() as u8);
    body.extend((name.date as u32).to_le_bytes());
    body.extend([name.payment, name.kind]);
    body.extend((shipment.tariff.flat as u32).to_le_bytes());
    body.extend([stage_byte(shipment.stage), u8::from(shipment.go_ahead)]);
    body.extend((shipment.rows.len() as u16).to_le_bytes());
    for sum in [
        shipment.accepted_k,
        shipment.accepted_o,
        shipment.returned_k,
        shipment.returned_o,
    ] {
        body.extend(sum.to_le_bytes());
    }
    body.extend((shipment.tariff.rate as u16).to_le_bytes());
    for row in &shipment.rows {
        body.extend((row.amount as u32).to_le_bytes());
        body.push(state_byte(row.state));
        body.extend((row.fee.fee as u32).to_le_bytes());
        body.extend((row.fee.remainder as u16).to_le_bytes());
    }
    body
}

/// The shipment whose body this is, if its bytes are one. Whether it is sound is
/// for [`Book::is_sound`] to say, name parts and ranges among it.
fn shipment(body: &[u8]) -> Option<Shipment> {
    let mut unread = Unread(body);
    let identifier = unread.bytes(IDENTIFIER)?;
    let length = unread.number(1)? as usize;
    let (identifier, behind) = identifier.split_at_checked(length)?;
    if behind.iter().any(|byte| *byte != 0) {
        return None;
    }
    let name = Name {
        identifier: identifier.to_vec(),
        date: unread.number(4)?,
        payment: unread.number(1)? as u8,
        kind: unread.number(1)? as u8,
    };
    let flat = unread.number(4)?;
    let stage = stage(unread.number(1)?)?;
    let go_ahead = flag(unread.number(1)?)?;
    let orders = unread.number(2)?;
    let (accepted_k, accepted_o) = (unread.number(8)?, unread.number(8)?);
    let (returned_k, returned_o) = (unread.number(8)?, unread.number(8)?);
    let rate = unread.number(2)?;
    let mut rows = Vec::new();
    for _ in 0..orders {
        rows.push(Row {
            amount: unread.number(4)?,
            state: state(unread.number(1)? as u8)?,
            fee: Fee {
                fee: unread.number(4)?,
                remainder: unread.number(2)?,
            },
        });
    }
    unread.0.is_empty().then_some(Shipment {
        name,
        tariff: Tariff { flat, rate },
        stage,
        go_ahead,
        accepted_k,
        accepted_o,
        returned_k,
        returned_o,
        rows,
    })
}

/// The byte of a stage.
fn stage_byte(stage: Stage) -> u8 {
    match stage {
        Stage::Waiting => 0,
        Stage::Paired => 1,
        Stage::Closed => 2,
    }
}

/// The stage that a byte means, if any.
fn stage(byte: u64) -> Option<Stage> {
    match byte {
        0 => Some(Stage::Waiting),
        1 => Some(Stage::Paired),
        2 => Some(Stage::Closed),
        _ => None,
    }
}

/// Whether a go-ahead came, if the byte says it.
fn flag(byte: u64) -> Option<bool> {
    match byte {
        0 => Some(false),
        1 => Some(true),
        _ => None,
    }
}

/// The byte of a state.
fn state_byte(state: State) -> u8 {
    match state {
        State::Open => 0,
        State::Posted => 1,
        State::Paid => 2,
        State::Undelivered { k_waits } => 4 + u8::from(k_waits),
        State::Withdrawn { waits } => 8 + waits_bits(waits),
        State::Faulty { fault, waits } => 8 + 4 * fault + waits_bits(waits),
    }
}

/// The state that a byte means, if any.
fn state(byte: u8) -> Option<State> {
    let waits = Waits {
        k: byte & 1 != 0,
        o: byte & 2 != 0,
    };
    match byte {
        0 => Some(State::Open),
        1 => Some(State::Posted),
        2 => Some(State::Paid),
        4 | 5 => Some(State::Undelivered { k_waits: waits.k }),
        8..=11 => Some(State::Withdrawn { waits }),
        12..=51 => Some(State::Faulty {
            fault: byte / 4 - 2,
            waits,
        }),
        _ => None,
    }
}

/// 1 where K waits, and 2 more where O waits.
fn waits_bits(waits: Waits) -> u8 {
    u8::from(waits.k) + 2 * u8::from(waits.o)
}

/// Bytes of which those in front are read one field after the other.
struct Unread<'a>(&'a [u8]);

impl<'a> Unread<'a> {
    /// The next so many bytes, if there are as many.
    fn bytes(&mut self, length: usize) -> Option<&'a [u8]> {
        let (field, rest) = self.0.split_at_checked(length)?;
        self.0 = rest;
        Some(field)
    }

    /// The number in the next so many bytes, least byte first, at most eight.
    fn number(&mut self, length: usize) -> Option<u64> {
        let digits = self.bytes(length)?.iter().rev();
        Some(digits.fold(0, |number, byte| number << 8 | u64::from(*byte)))
    }
}
