//! A book as stored bytes, and back. That the calls are safe is for the same
//! reason as the others of a book.

use crate::book::{done, Book};
use crate::question::Call;
use crate::refusal::Refusal;
use crate::report::whole;
use crate::sys::{self, Reply};

impl<M: AsRef<[u8]>> Book<M> {
    /// Stores the book, and gives the bytes to keep in a file: its shipments and
    /// nothing else, so that equal books have equal bytes. It is refused with 10
    /// or not at all, and leaves the book as it is.
    ///
    /// Only stored bytes travel: the memory of a book ([`bytes`](Book::bytes)) is
    /// of one version of the library, and another may lay it out otherwise.
    ///
    /// ```
    /// use buntingraft::Book;
    ///
    /// let book = Book::empty();
    /// let stored = book.store()?;
    /// assert_eq!(stored, [2, 0]); // the form, and no shipment
    /// assert_eq!(Book::load(&stored)?.sheet()?, book.sheet()?);
    ///
    /// let refusal = Book::load(b"something else").unwrap_err();
    /// assert_eq!(refusal.number(), 32);
    /// # Ok::<(), buntingraft::Refusal>(())
    /// ```
    pub fn store(&self) -> Result<Vec<u8>, Refusal> {
        let most = sys::buntingraft_stored_bytes();
        whole(most, |output| self.store_into(output))
    }

    /// [`store`](Book::store) for a caller who has an output, of
    /// [`MOST_STORED_BYTES`](crate::MOST_STORED_BYTES) for any book. Gives the
    /// length written; the bytes behind it stay as they are, and are no part of
    /// the stored book. A refusal, with 10 or then 30, leaves every byte of the
    /// output.
    pub fn store_into(&self, output: &mut [u8]) -> Result<usize, Refusal> {
        let reply = store_reply(self.bytes(), output);
        done(Call::Store, reply).map(|(length, _)| length as usize)
    }
}

impl Book<Box<[u8]>> {
    /// The book that was stored as these bytes, in bytes of its own. It is
    /// refused with 32 or not at all: only what the newest form has for a sound
    /// book loads, without a byte missing, changed or behind.
    pub fn load(stored: &[u8]) -> Result<Self, Refusal> {
        let bytes = vec![0; sys::buntingraft_book_bytes() as usize];
        Book::load_in(bytes.into_boxed_slice(), stored)
    }
}

impl<M: AsRef<[u8]> + AsMut<[u8]>> Book<M> {
    /// [`load`](Book::load) into this memory, whatever it held: it then holds
    /// exactly the book that was stored. A refusal, with 32 or then with 30
    /// where there are fewer bytes than [`BOOK_BYTES`](crate::BOOK_BYTES),
    /// leaves every byte of the memory.
    ///
    /// ```
    /// use buntingraft::{Book, BOOK_BYTES};
    ///
    /// let mut memory = [0xAA; BOOK_BYTES];
    /// let refusal = Book::load_in(&mut memory[1..], &[2, 0]).unwrap_err();
    /// assert_eq!(refusal.to_string(), "refused with 30: Is the book's memory long enough?");
    /// assert_eq!(memory, [0xAA; BOOK_BYTES]);
    /// assert_eq!(Book::load_in(&mut memory[..], &[2, 0])?.sheet()?.rows, []);
    /// # Ok::<(), buntingraft::Refusal>(())
    /// ```
    pub fn load_in(mut memory: M, stored: &[u8]) -> Result<Self, Refusal> {
        done(Call::Load, load_reply(memory.as_mut(), stored))?;
        Ok(Book::lent(memory))
    }
}

/// The archive's reply to storing.
fn store_reply(book: &[u8], output: &mut [u8]) -> Reply {
    // SAFETY: `book` is a shared slice, `output` an exclusive one.
    unsafe { sys::buntingraft_store(book.as_ptr(), book.len(), output.as_mut_ptr(), output.len()) }
}

/// The archive's reply to loading.
fn load_reply(book: &mut [u8], stored: &[u8]) -> Reply {
    // SAFETY: `book` is an exclusive slice, `stored` a shared one.
    unsafe { sys::buntingraft_load(book.as_mut_ptr(), book.len(), stored.as_ptr(), stored.len()) }
}

#[cfg(test)]
mod tests {
    use super::*;
    use crate::book::tests::enter;
    use crate::{BOOK_BYTES, MOST_STORED_BYTES};

    /// A reply as three numbers.
    fn numbers(reply: Reply) -> [u64; 3] {
        [reply.status, reply.first, reply.second]
    }

    #[test]
    fn a_stored_book_takes_at_most_as_many_bytes_as_the_archive_says() {
        assert_eq!(sys::buntingraft_stored_bytes(), MOST_STORED_BYTES);
    }

    #[test]
    fn a_reply_to_storing_has_its_length_or_its_number_and_0() {
        let mut book = Book::empty();
        let reply = |book: &[u8], length| {
            let mut output = [0; 99];
            numbers(store_reply(book, &mut output[..length]))
        };
        assert_eq!(reply(book.bytes(), 99), [0, 2, 0]);
        enter(&mut book, "ZS1");
        assert_eq!(reply(book.bytes(), 87), [0, 87, 0]);
        assert_eq!(reply(book.bytes(), 86), [2, 30, 0]);
        assert_eq!(reply(&[], 0), [2, 10, 0]);
    }

    #[test]
    fn a_reply_to_loading_has_its_number_and_0_or_only_zeros() {
        let reply = |length, stored: &[u8]| {
            let mut memory = vec![0xAA; length];
            numbers(load_reply(&mut memory, stored))
        };
        assert_eq!(reply(BOOK_BYTES, &[2, 0]), [0, 0, 0]);
        assert_eq!(reply(BOOK_BYTES - 1, &[2, 0]), [2, 30, 0]);
        assert_eq!(reply(BOOK_BYTES, &[1, 0]), [2, 32, 0]);
        assert_eq!(reply(0, &[]), [2, 32, 0]);
    }

    #[test]
    fn a_loaded_book_goes_on_as_the_one_that_was_stored() {
        let mut book = Book::empty();
        enter(&mut book, "ZS1");
        let stored = book.store().expect("a sound book");
        let mut loaded = Book::load(&stored).expect("a stored book");
        for book in [&mut book, &mut loaded] {
            assert_eq!(book.transfer(b"EPEZZS1-201007-A-0-K", 100), Ok(()));
            enter(book, "ZS2");
        }
        assert_eq!(loaded.store(), book.store());
        assert_eq!(loaded.sheet(), book.sheet());
    }
}
