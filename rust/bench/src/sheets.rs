//! A balance sheet, to be filled by either book.

use crate::twin;
use buntingraft::{SheetRow, Totals, MOST_SHIPMENTS};

/// What a sheet is lent.
#[derive(Clone, Debug, PartialEq, Eq)]
pub struct Lent {
    /// The table of rows.
    pub table: Vec<SheetRow>,
    /// The totals.
    pub totals: Totals,
}

impl Default for Lent {
    /// A table for any book, and totals of nothing.
    fn default() -> Lent {
        Lent {
            table: vec![SheetRow::default(); MOST_SHIPMENTS],
            totals: Totals::default(),
        }
    }
}

/// The archive's sheet: how many rows it has filled, or the refusal's number.
pub fn archive_sheet(memory: &mut [u8], lent: &mut Lent) -> Result<usize, u64> {
    let filled = buntingraft::Book::lent(memory).sheet_into(&mut lent.table, &mut lent.totals);
    filled.map_err(|refusal| refusal.number())
}

/// The twin's.
pub fn twin_sheet(memory: &mut [u8], lent: &mut Lent) -> Result<usize, u64> {
    twin::Book::<true>::lent(memory).sheet_into(&mut lent.table, &mut lent.totals)
}

/// What both answer for a book; both leave the same table and the same totals.
pub fn agreed_sheet(book: &[u8], lent: &Lent) -> Result<usize, u64> {
    let [mut by_archive, mut by_twin] = [lent.clone(), lent.clone()];
    let archive = archive_sheet(&mut book.to_vec(), &mut by_archive);
    let twin = twin_sheet(&mut book.to_vec(), &mut by_twin);
    assert_eq!((&archive, by_archive), (&twin, by_twin));
    archive
}
