//! Stored books, to be stored and loaded by either book.

use crate::twin;
use buntingraft::{BOOK_BYTES, MOST_STORED_BYTES};

/// The archive's stored bytes: how many they are, or the refusal's number.
pub fn archive_store(memory: &mut [u8], output: &mut [u8]) -> Result<usize, u64> {
    let stored = buntingraft::Book::lent(memory).store_into(output);
    stored.map_err(|refusal| refusal.number())
}

/// The twin's.
pub fn twin_store(memory: &mut [u8], output: &mut [u8]) -> Result<usize, u64> {
    twin::Book::<true>::lent(memory).store(output)
}

/// The archive's load, or the refusal's number.
pub fn archive_load(memory: &mut [u8], stored: &[u8]) -> Result<(), u64> {
    let loaded = buntingraft::Book::load_in(memory, stored);
    loaded.map(drop).map_err(|refusal| refusal.number())
}

/// The twin's.
pub fn twin_load(memory: &mut [u8], stored: &[u8]) -> Result<(), u64> {
    twin::Book::<true>::lent(memory).load(stored)
}

/// What both answer for a book in an output of so many bytes; both leave the same
/// bytes there, and the book.
pub fn agreed_store(book: &[u8], length: usize) -> Result<Vec<u8>, u64> {
    let [archive, twin] = [archive_store, twin_store].map(|store| {
        let (mut memory, mut output) = (book.to_vec(), vec![0xAA; length]);
        let stored = store(&mut memory, &mut output);
        assert!(memory == book, "storing changed the book");
        (stored, output)
    });
    assert_eq!(archive, twin);
    let (stored, mut output) = archive;
    output.truncate(stored?);
    Ok(output)
}

/// What both answer to these bytes in this memory; both leave the memory where
/// they refuse, else what is stored as the same bytes, and what lies behind.
pub fn agreed_load(memory: &[u8], stored: &[u8]) -> Result<(), u64> {
    let [archive, twin] = [archive_load, twin_load].map(|load| {
        let mut loaded = memory.to_vec();
        let answer = load(&mut loaded, stored);
        if answer.is_ok() {
            let again = agreed_store(&loaded, MOST_STORED_BYTES);
            assert_eq!(again.as_deref(), Ok(stored));
            assert_eq!(loaded[BOOK_BYTES..], memory[BOOK_BYTES..]);
        } else {
            assert!(loaded == memory, "a refused load changed the memory");
        }
        answer
    });
    assert_eq!(archive, twin);
    archive
}
