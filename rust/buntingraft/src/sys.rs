//! The archives as include/buntingraft.h declares them: the records that they
//! take, give and fill, and their functions.

use crate::money::{Amount, Fee};

/// A reply: its status, and two numbers whose meaning depends on the call. The
/// calls of a [`Book`](crate::Book) tell it as what they answer; a replay tells
/// it as it is.
#[repr(C)]
#[derive(Clone, Copy, Debug, Default, PartialEq, Eq)]
pub struct Reply {
    /// 0 done, 1 short (of a pairing alone), 2 refused.
    pub status: u64,
    /// A refusal's number, or the first number of an answer.
    pub first: u64,
    /// The second number of an answer.
    pub second: u64,
}

/// The status of a call that was done.
pub(crate) const DONE: u64 = 0;

/// The status of a pairing that lacks money.
pub(crate) const SHORT: u64 = 1;

/// What an intake goes by. Any numbers can be passed; those out of range are
/// refused with 905, rates with 907.
///
/// An order's fee is the flat part of its shipment's benefit kind and the whole
/// grosze of its amount times the rate over 10,000.
#[repr(C)]
#[derive(Clone, Copy, Debug, PartialEq, Eq)]
pub struct Profile {
    /// Today, a real date of 2000 to 2099, as the number yyyymmdd: 20201007.
    pub today: u64,
    /// The flat part of an order's fee in grosze, by the shipment's benefit kind
    /// 0 to 4: each 0 to 999,999,999.
    pub flat: [u64; 5],
    /// R, the number of fields in a record line: 19 to 32.
    pub fields: u64,
    /// The rate of an order's fee in ten-thousandths of its amount, by the same
    /// kinds: each 0 to 10,000.
    pub rates: [u64; 5],
}

/// A row of the balance sheet: where a shipment's money is. In either money
/// accepted is held, free and left together.
#[repr(C)]
#[derive(Clone, Copy, Debug, Default, PartialEq, Eq)]
pub struct SheetRow {
    /// The shipment's identifier, zeros behind it;
    /// [`identifier`](SheetRow::identifier) is the identifier alone.
    pub id: [u8; 17],
    /// The identifier's length: 3 to 17.
    pub id_len: u64,
    /// All transfers of K accepted.
    pub k_accepted: Amount,
    /// The amounts of Open and Posted orders and those that wait; 0 where the
    /// shipment is not Paired.
    pub k_held: Amount,
    /// K accepted, less the need where the shipment is Paired, less what ZWR
    /// returned.
    pub k_free: Amount,
    /// The amounts paid out, and what all routes returned of K.
    pub k_left: Amount,
    /// All transfers of O accepted.
    pub o_accepted: Fee,
    /// The fees of Open orders and those that wait; 0 where the shipment is not
    /// Paired.
    pub o_held: Fee,
    /// O accepted, less the need where the shipment is Paired, less what ZWR
    /// returned.
    pub o_free: Fee,
    /// The fees earned, and what all routes returned of O.
    pub o_left: Fee,
}

/// The eight sums of a [`SheetRow`], added up over the rows of one sheet or of
/// several. Any numbers can be passed; those that come to more than
/// 999,999,999,999,999 are refused with 26.
#[repr(C)]
#[derive(Clone, Copy, Debug, Default, PartialEq, Eq)]
pub struct Totals {
    /// K accepted.
    pub k_accepted: Amount,
    /// K held.
    pub k_held: Amount,
    /// K free.
    pub k_free: Amount,
    /// K left.
    pub k_left: Amount,
    /// O accepted.
    pub o_accepted: Fee,
    /// O held.
    pub o_held: Fee,
    /// O free.
    pub o_free: Fee,
    /// O left.
    pub o_left: Fee,
}

/// A call for the shipment with an identifier: book, its length, identifier,
/// its length.
pub(crate) type OnShipment = unsafe extern "C" fn(*mut u8, usize, *const u8, usize) -> Reply;

/// A call for one order of a shipment: as [`OnShipment`], and the order's
/// number.
pub(crate) type OnOrder = unsafe extern "C" fn(*mut u8, usize, *const u8, usize, u64) -> Reply;

// SAFETY: these are the header's declarations, and one of the two archives
// defines each of them.
unsafe extern "C" {
    pub(crate) safe fn buntingraft_book_bytes() -> u64;

    pub(crate) fn buntingraft_make_empty(book: *mut u8, book_length: usize) -> Reply;

    pub(crate) fn buntingraft_intake(
        book: *mut u8,
        book_length: usize,
        profile: Profile,
        name: *const u8,
        name_length: usize,
        file: *const u8,
        file_length: usize,
    ) -> Reply;

    pub(crate) fn buntingraft_transfer(
        book: *mut u8,
        book_length: usize,
        title: *const u8,
        title_length: usize,
        amount: u64,
    ) -> Reply;

    pub(crate) fn buntingraft_go_ahead(
        book: *mut u8,
        book_length: usize,
        id: *const u8,
        id_length: usize,
    ) -> Reply;

    pub(crate) fn buntingraft_pair(
        book: *mut u8,
        book_length: usize,
        id: *const u8,
        id_length: usize,
    ) -> Reply;

    pub(crate) fn buntingraft_close(
        book: *mut u8,
        book_length: usize,
        id: *const u8,
        id_length: usize,
    ) -> Reply;

    pub(crate) fn buntingraft_post(
        book: *mut u8,
        book_length: usize,
        id: *const u8,
        id_length: usize,
        order: u64,
    ) -> Reply;

    pub(crate) fn buntingraft_pay(
        book: *mut u8,
        book_length: usize,
        id: *const u8,
        id_length: usize,
        order: u64,
    ) -> Reply;

    pub(crate) fn buntingraft_mark_undelivered(
        book: *mut u8,
        book_length: usize,
        id: *const u8,
        id_length: usize,
        order: u64,
    ) -> Reply;

    pub(crate) fn buntingraft_withdraw(
        book: *mut u8,
        book_length: usize,
        id: *const u8,
        id_length: usize,
        order: u64,
    ) -> Reply;

    pub(crate) fn buntingraft_return(
        book: *mut u8,
        book_length: usize,
        id: *const u8,
        id_length: usize,
        route: u64,
        money: u64,
    ) -> Reply;

    pub(crate) fn buntingraft_sheet(
        book: *const u8,
        book_length: usize,
        table: *mut SheetRow,
        rows: usize,
        totals: *mut Totals,
    ) -> Reply;

    pub(crate) fn buntingraft_write_rkf(
        own: *const u8,
        own_length: usize,
        created: u64,
        source: *const u8,
        source_length: usize,
        refusal: u64,
        output: *mut u8,
        output_length: usize,
    ) -> Reply;

    pub(crate) fn buntingraft_write_ope(
        book: *const u8,
        book_length: usize,
        id: *const u8,
        id_length: usize,
        own: *const u8,
        own_length: usize,
        created: u64,
        codes: *const u64,
        codes_count: usize,
        output: *mut u8,
        output_length: usize,
    ) -> Reply;

    pub(crate) fn buntingraft_write_money(
        grosze: u64,
        output: *mut u8,
        output_length: usize,
    ) -> Reply;

    pub(crate) safe fn buntingraft_amount_for(flat: u64, rate: u64, total: u64) -> Reply;

    pub(crate) fn buntingraft_judge_extra(extra: *const u8, extra_length: usize) -> Reply;

    pub(crate) fn buntingraft_judge_around(
        bits: u64,
        before: *const u8,
        before_length: usize,
        after: *const u8,
        after_length: usize,
    ) -> Reply;

    pub(crate) safe fn buntingraft_stored_bytes() -> usize;

    pub(crate) fn buntingraft_store(
        book: *const u8,
        book_length: usize,
        output: *mut u8,
        output_length: usize,
    ) -> Reply;

    pub(crate) fn buntingraft_load(
        book: *mut u8,
        book_length: usize,
        stored: *const u8,
        stored_length: usize,
    ) -> Reply;

    pub(crate) fn buntingraft_replay(
        book: *mut u8,
        book_length: usize,
        journal: *const u8,
        journal_length: usize,
        answers: *mut Reply,
        places: usize,
    ) -> Reply;
}

#[cfg(test)]
mod tests {
    use super::*;
    use std::mem::offset_of;

    #[test]
    fn a_reply_is_laid_out_as_the_header_has_it() {
        assert_eq!((size_of::<Reply>(), align_of::<Reply>()), (24, 8));
        assert_eq!(offset_of!(Reply, status), 0);
        assert_eq!(offset_of!(Reply, first), 8);
        assert_eq!(offset_of!(Reply, second), 16);
    }

    #[test]
    fn a_profile_is_laid_out_as_the_header_has_it() {
        assert_eq!((size_of::<Profile>(), align_of::<Profile>()), (96, 8));
        assert_eq!(offset_of!(Profile, today), 0);
        assert_eq!(offset_of!(Profile, flat), 8);
        assert_eq!(offset_of!(Profile, fields), 48);
        assert_eq!(offset_of!(Profile, rates), 56);
    }

    #[test]
    fn a_row_is_laid_out_as_the_header_has_it() {
        assert_eq!((size_of::<SheetRow>(), align_of::<SheetRow>()), (96, 8));
        assert_eq!(offset_of!(SheetRow, id), 0);
        assert_eq!(offset_of!(SheetRow, id_len), 24);
        assert_eq!(offset_of!(SheetRow, k_accepted), 32);
        assert_eq!(offset_of!(SheetRow, k_held), 40);
        assert_eq!(offset_of!(SheetRow, k_free), 48);
        assert_eq!(offset_of!(SheetRow, k_left), 56);
        assert_eq!(offset_of!(SheetRow, o_accepted), 64);
        assert_eq!(offset_of!(SheetRow, o_held), 72);
        assert_eq!(offset_of!(SheetRow, o_free), 80);
        assert_eq!(offset_of!(SheetRow, o_left), 88);
    }

    #[test]
    fn totals_are_laid_out_as_the_header_has_them() {
        assert_eq!((size_of::<Totals>(), align_of::<Totals>()), (64, 8));
        assert_eq!(offset_of!(Totals, k_accepted), 0);
        assert_eq!(offset_of!(Totals, k_held), 8);
        assert_eq!(offset_of!(Totals, k_free), 16);
        assert_eq!(offset_of!(Totals, k_left), 24);
        assert_eq!(offset_of!(Totals, o_accepted), 32);
        assert_eq!(offset_of!(Totals, o_held), 40);
        assert_eq!(offset_of!(Totals, o_free), 48);
        assert_eq!(offset_of!(Totals, o_left), 56);
    }
}
