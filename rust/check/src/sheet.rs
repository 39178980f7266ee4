//! A balance sheet taken of lent memory, with its table and totals between
//! guards, and held to the reference's: the answer, the rows filled and the
//! totals, and that nothing else was touched.

use crate::lent::Lent;
use buntingraft::{Amount, Fee, SheetRow, Totals};
use reference::{Book, Sums};
use std::fmt;

/// What is lent for a sheet besides the book.
#[derive(Clone, Copy)]
pub struct Lending {
    /// How many rows the table has.
    pub rows: usize,
    /// What the totals hold.
    pub totals: Sums,
}

impl Lending {
    /// A table with a row for each shipment of this book, and totals of zero.
    pub fn for_book(book: &Book) -> Lending {
        Lending {
            rows: book.shipments.len(),
            totals: [0; 8],
        }
    }
}

impl fmt::Display for Lending {
    fn fmt(&self, f: &mut fmt::Formatter<'_>) -> fmt::Result {
        let Lending { rows, totals } = self;
        write!(f, "sheet in {rows} rows, totals {totals:?}")
    }
}

/// What a sheet answers: the rows filled, or the number of its refusal.
pub type Taken = Result<Vec<SheetRow>, u32>;

/// How many rows guard the table on either side.
const GUARDS: usize = 2;

/// What the guards and the table's rows hold before a sheet.
const UNTOUCHED: SheetRow = SheetRow {
    id: [0xA5; 17],
    id_len: u64::MAX,
    k_accepted: Amount(1),
    k_held: Amount(2),
    k_free: Amount(3),
    k_left: Amount(4),
    o_accepted: Fee(5),
    o_held: Fee(6),
    o_free: Fee(7),
    o_left: Fee(8),
};

/// Takes the sheet of lent memory that must hold this book, and gives what it
/// answers, or the difference.
pub fn take(lent: &mut Lent, book: Option<&Book>, lending: &Lending) -> Result<Taken, String> {
    let rows = GUARDS..GUARDS + lending.rows;
    let mut table = vec![UNTOUCHED; rows.end + GUARDS];
    let mut totals = [UNTOUCHED.sums(); 3];
    totals[1] = totals_of(lending.totals);
    let (mut table_after, mut totals_after) = (table.clone(), totals);
    let archive = lent.sheet(&mut table[rows.clone()], &mut totals[1])?;
    let reference = by_reference(book, &mut table_after[rows], &mut totals_after[1]);
    if archive != reference {
        return Err(format!("archive {archive:?}, reference {reference:?}"));
    }
    for (place, (row, after)) in (1..).zip(table.iter().zip(&table_after)) {
        if row != after {
            return Err(format!(
                "{archive:?}, and row {place} ({GUARDS} rows lie before the table) is {row:?}\nnot {after:?}"
            ));
        }
    }
    if totals != totals_after {
        return Err(format!(
            "{archive:?}, and the totals, with those around them, are {totals:?}\nnot {totals_after:?}"
        ));
    }
    Ok(archive.map(|filled| table[GUARDS..][..filled].to_vec()))
}

/// Does the same with the reference's book; without one it is refused with 10.
fn by_reference(
    book: Option<&Book>,
    table: &mut [SheetRow],
    totals: &mut Totals,
) -> Result<usize, u32> {
    let mut rows = vec![reference::SheetRow::default(); table.len()];
    let mut sums = sums_of(totals);
    let filled = book.ok_or(10u32)?.sheet(&mut rows, &mut sums)?;
    for (lent, row) in table.iter_mut().zip(&rows[..filled]) {
        *lent = row_of(row);
    }
    *totals = totals_of(sums);
    Ok(filled)
}

/// The row that the archive fills where the reference fills this one.
fn row_of(row: &reference::SheetRow) -> SheetRow {
    let mut id = [0; 17];
    id[..row.identifier.len()].copy_from_slice(&row.identifier);
    let sums = totals_of(row.sums);
    SheetRow {
        id,
        id_len: row.identifier.len() as u64,
        k_accepted: sums.k_accepted,
        k_held: sums.k_held,
        k_free: sums.k_free,
        k_left: sums.k_left,
        o_accepted: sums.o_accepted,
        o_held: sums.o_held,
        o_free: sums.o_free,
        o_left: sums.o_left,
    }
}

/// Eight sums in the order of document 01.
pub fn sums_of(totals: &Totals) -> Sums {
    [
        totals.k_accepted.0,
        totals.k_held.0,
        totals.k_free.0,
        totals.k_left.0,
        totals.o_accepted.0,
        totals.o_held.0,
        totals.o_free.0,
        totals.o_left.0,
    ]
}

/// Eight sums as a record of totals.
fn totals_of(sums: Sums) -> Totals {
    let [k_accepted, k_held, k_free, k_left, o_accepted, o_held, o_free, o_left] = sums;
    Totals {
        k_accepted: Amount(k_accepted),
        k_held: Amount(k_held),
        k_free: Amount(k_free),
        k_left: Amount(k_left),
        o_accepted: Fee(o_accepted),
        o_held: Fee(o_held),
        o_free: Fee(o_free),
        o_left: Fee(o_left),
    }
}
