//! The stored books of both are alike, and so is what is loaded of them and what
//! a refused call leaves.

use crate::soundness::three_shipments;
use crate::Rivals;
use bench::calls::Call;
use bench::files::{order_file, Records, RATED};
use bench::stores::{agreed_load, agreed_store};
use buntingraft::{BOOK_BYTES, MOST_STORED_BYTES};

/// The stored bytes of a sound book: into an output that is too short, exact and
/// longer; and loaded into memory that is too short, exact and longer.
pub fn agree_on_storing(book: &[u8]) -> Vec<u8> {
    let stored = agreed_store(book, MOST_STORED_BYTES).expect("a sound book");
    let length = stored.len();
    assert_eq!(agreed_store(book, length).as_ref(), Ok(&stored));
    for short in [0, 1, length - 1] {
        assert_eq!(agreed_store(book, short), Err(30));
    }
    assert_eq!(agreed_load(book, &stored), Ok(()));
    assert_eq!(agreed_load(&[0xAA; BOOK_BYTES], &stored), Ok(()));
    for short in [0, 1, BOOK_BYTES - 1] {
        assert_eq!(agreed_load(&book[..short], &stored), Err(30));
        assert_eq!(agreed_load(&book[..short], &stored[1..]), Err(32));
    }
    stored
}

#[test]
fn an_empty_book_is_stored_alike() {
    assert_eq!(agree_on_storing(&Rivals::new().archive), [2, 0]);
}

#[test]
fn every_changed_byte_is_judged_alike() {
    let memory = three_shipments().archive;
    let stored = agree_on_storing(&memory);
    let (mut loaded, mut refused) = (0, 0);
    for at in 0..stored.len() {
        let mut changed = stored.clone();
        for byte in 0..=255 {
            changed[at] = byte;
            match agreed_load(&memory, &changed) {
                Ok(()) => loaded += 1,
                Err(32) => refused += 1,
                answer => panic!("{answer:?} with {byte} at {at}"),
            }
        }
    }
    assert!(loaded > 1_000 && refused > 10_000, "{loaded} {refused}");
}

#[test]
fn bytes_missing_and_bytes_behind_are_refused_alike() {
    let memory = three_shipments().archive;
    let stored = agree_on_storing(&memory);
    for length in 0..stored.len() {
        assert_eq!(agreed_load(&memory, &stored[..length]), Err(32));
    }
    for behind in [1, 8, 11, 66, 1_000] {
        let longer = [&stored[..], &vec![0; behind]].concat();
        assert_eq!(agreed_load(&memory, &longer), Err(32));
    }
}

#[test]
fn swapped_entries_and_bodies_are_judged_alike() {
    let memory = three_shipments().archive;
    let stored = agree_on_storing(&memory);
    for (from, length) in [(2, 8), (2, 4), (6, 4)] {
        let mut swapped = stored.clone();
        for at in from..from + length {
            swapped.swap(at, at + 8);
        }
        let _ = agreed_load(&memory, &swapped);
    }
    let mut turned = stored.clone();
    turned[26..].rotate_left(66 + 11 * 7);
    assert_eq!(agreed_load(&memory, &turned), Ok(()));
}

#[test]
fn full_books_are_stored_alike() {
    for (shipments, orders, length) in [(1, 2_048, 22_604), (32, 64, MOST_STORED_BYTES)] {
        let mut rivals = Rivals::new();
        for n in 1..=shipments {
            let file = order_file(&format!("SHIPMENT{n:02}"), orders, Records::Faulty);
            rivals.make(Call::Intake(&RATED, &file.name, &file.bytes));
        }
        let stored = agree_on_storing(&rivals.archive);
        assert_eq!(stored.len(), length);
        for at in (0..length).step_by(13) {
            let mut changed = stored.clone();
            changed[at] ^= 1;
            let _ = agreed_load(&rivals.archive, &changed);
        }
    }
}

#[test]
fn memory_that_is_no_sound_book_is_not_stored() {
    for memory in [vec![], vec![0; 100], vec![0xFF; 30_000]] {
        assert_eq!(agreed_store(&memory, 0), Err(10));
        assert_eq!(agreed_store(&memory, MOST_STORED_BYTES), Err(10));
    }
}
