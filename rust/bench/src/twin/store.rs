//! A book as stored bytes (docs/LAYOUT.md), and back.

use super::layout::{orders, Head, Parts, Rows, MOST_ROWS};
use super::sound::is_sound;
use super::{Book, Refusal};
use buntingraft::BOOK_BYTES;

/// The form in which books are stored.
const FORM: u8 = 2;

/// The bytes before the table.
const FRONT: usize = 2;

/// The bytes of a stored row.
const ROW: usize = 11;

/// A shipment's bytes in the table.
type Entry = [u8; 8];

impl<const SOUND: bool> Book<'_, SOUND> {
    /// Stores the book and answers its length (10, 30).
    pub fn store(&mut self, output: &mut [u8]) -> Result<usize, Refusal> {
        let book = self.parts()?;
        let heads = book.shipments();
        let bodies = size_of_val(heads) + ROW * book.row_count();
        let mut start = FRONT + size_of::<Entry>() * heads.len();
        let length = start + bodies;
        let output = output.get_mut(..length).ok_or(30u64)?;
        let (front, mut bodies) = output.split_at_mut(start);
        let (front, table) = front.split_at_mut(FRONT);
        front.copy_from_slice(&[FORM, *book.count]);
        let mut rows = book.rows();
        for (place, head) in table.as_chunks_mut().0.iter_mut().zip(heads) {
            let (own, later) = rows.split_at(orders(head));
            let (body, behind) = bodies.split_at_mut(body_length(head));
            *place = entry(start, body.len());
            let (body_head, body_rows) = body.split_at_mut(head.len());
            body_head.copy_from_slice(head);
            pack(own, body_rows.as_chunks_mut().0);
            start += body.len();
            (bodies, rows) = (behind, later);
        }
        Ok(length)
    }

    /// Loads a stored book (32, 30).
    pub fn load(&mut self, stored: &[u8]) -> Result<(), Refusal> {
        let mut scratch = [0; BOOK_BYTES];
        let mut book = Parts::of(&mut scratch).ok_or(30u64)?;
        unpack(stored, &mut book).ok_or(32u64)?;
        if SOUND && !is_sound(&book) {
            return Err(32);
        }
        let memory = self.0.first_chunk_mut().ok_or(30u64)?;
        *memory = scratch;
        Ok(())
    }
}

/// Stores the columns row by row: amount, state, fee, remainder.
fn pack(rows: Rows, stored: &mut [[u8; ROW]]) {
    let orders = rows.amounts.iter().zip(rows.states);
    let rows = orders.zip(rows.fees).zip(rows.remainders);
    for (stored, (((amount, state), fee), remainder)) in stored.iter_mut().zip(rows) {
        stored[..4].copy_from_slice(amount);
        stored[4] = *state;
        stored[5..9].copy_from_slice(fee);
        stored[9..].copy_from_slice(remainder);
    }
}

/// The length of a shipment's body.
fn body_length(head: &Head) -> usize {
    head.len() + ROW * orders(head)
}

/// The table's entry for a body.
fn entry(start: usize, length: usize) -> Entry {
    (start as u64 | (length as u64) << 32).to_le_bytes()
}

/// Unpacks stored bytes into the parts of an empty book; none unless form, table
/// and bodies fit together and nothing is missing or behind.
fn unpack(stored: &[u8], book: &mut Parts) -> Option<()> {
    let ([FORM, count], rest) = stored.split_first_chunk()? else {
        return None;
    };
    let heads = book.heads.get_mut(..usize::from(*count))?;
    let (table, mut bodies) = rest.split_at_checked(size_of::<Entry>() * heads.len())?;
    let (mut start, mut used) = (FRONT + table.len(), 0);
    for (place, head) in table.as_chunks().0.iter().zip(heads) {
        *head = *bodies.first_chunk()?;
        let (body, behind) = bodies.split_at_checked(body_length(head))?;
        let own = used..used + orders(head);
        if *place != entry(start, body.len()) || own.end > MOST_ROWS {
            return None;
        }
        let rows = body[head.len()..].as_chunks::<ROW>().0;
        for (stored, at) in rows.iter().zip(own.clone()) {
            book.amounts[at].copy_from_slice(&stored[..4]);
            book.states[at] = stored[4];
            book.fees[at].copy_from_slice(&stored[5..9]);
            book.remainders[at].copy_from_slice(&stored[9..]);
        }
        start += body.len();
        (bodies, used) = (behind, own.end);
    }
    *book.count = *count;
    bodies.is_empty().then_some(())
}
