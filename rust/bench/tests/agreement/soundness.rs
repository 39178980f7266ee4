//! Memory that is no sound book is refused alike, whichever byte is spoilt.

use crate::Rivals;
use bench::calls::{Answer, Call};
use bench::files::{order_file, Records, PROFILE, RATED};
use buntingraft::BOOK_BYTES;

/// A book of a Waiting, a Paired and a Closed shipment, seven orders each, the
/// second with a rate.
pub fn three_shipments() -> Rivals {
    let mut rivals = Rivals::new();
    for (id, profile) in [("WA1", &PROFILE), ("PA1", &RATED), ("CL1", &PROFILE)] {
        let file = order_file(id, 7, Records::Faulty);
        rivals.make(Call::Intake(profile, &file.name, &file.bytes));
        for money in ["K", "O"] {
            let title = format!("EPEZ{id}-201007-A-0-{money}");
            rivals.make(Call::Transfer(title.as_bytes(), file.sum));
        }
    }
    for call in [
        Call::GoAhead(b"PA1"),
        Call::Pair(b"PA1"),
        Call::Close(b"CL1"),
    ] {
        rivals.make(call);
    }
    for call in [
        Call::Post(b"PA1", 2),
        Call::Post(b"PA1", 3),
        Call::Pay(b"PA1", 3),
        Call::Post(b"PA1", 4),
        Call::MarkUndelivered(b"PA1", 4),
        Call::Withdraw(b"PA1", 5),
    ] {
        assert!(!matches!(rivals.make(call), Answer::Refused(_)), "{call:?}");
    }
    rivals
}

/// The places of the first so many orders' bytes, in all columns.
fn columns(orders: usize) -> impl Iterator<Item = usize> {
    let columns = [(2_176, 4), (10_368, 4), (18_560, 2), (22_656, 1)];
    let places = |(from, width)| from..from + orders * width;
    columns.map(places).into_iter().flatten()
}

#[test]
fn fees_whose_division_nearly_holds_are_judged_alike() {
    let memory = three_shipments().archive;
    let mut rivals = Rivals::holding(&memory);
    // The first order of each shipment: WA1, PA1 and CL1.
    for order in [0, 7, 14] {
        let (fee_at, remainder_at) = (10_368 + 4 * order, 18_560 + 2 * order);
        let four = std::array::from_fn(|byte| memory[fee_at + byte]);
        let two = std::array::from_fn(|byte| memory[remainder_at + byte]);
        let (fee, remainder) = (u32::from_le_bytes(four), u16::from_le_bytes(two));
        for (grosze, parts) in [
            (0, 0),
            (1, -10_000),
            (-1, 10_000),
            (2, -20_000),
            (-2, 20_000),
            (1 << 28, 0),
            (-1, 0),
            (1, 0),
        ] {
            let fee = fee.wrapping_add_signed(grosze).to_le_bytes();
            let remainder = remainder.wrapping_add_signed(parts).to_le_bytes();
            for memory in [&mut rivals.archive, &mut rivals.twin] {
                memory[fee_at..][..4].copy_from_slice(&fee);
                memory[remainder_at..][..2].copy_from_slice(&remainder);
            }
            let refusal = if grosze == 0 { 13 } else { 10 };
            let answer = rivals.make_on_any(Call::Close(b""));
            assert_eq!(answer, Answer::Refused(refusal), "{order} {grosze}");
        }
        rivals = Rivals::holding(&memory);
    }
}

#[test]
fn every_spoilt_byte_is_judged_alike() {
    let memory = three_shipments().archive;
    let mut rivals = Rivals::holding(&memory);
    let (mut sound, mut unsound) = (0, 0);
    for at in (0..64 + 4 * 66).chain(columns(22)) {
        for byte in 0..=255 {
            rivals.archive[at] = byte;
            rivals.twin[at] = byte;
            match rivals.make_on_any(Call::Close(b"")) {
                Answer::Refused(10) => unsound += 1,
                Answer::Refused(13) => sound += 1,
                answer => panic!("{answer:?} with {byte} at {at}"),
            }
        }
        rivals.archive[at] = memory[at];
        rivals.twin[at] = memory[at];
    }
    assert!(sound > 10_000 && unsound > 10_000, "{sound} {unsound}");
}

#[test]
fn short_memory_is_refused_alike() {
    let file = order_file("ZS1", 1, Records::Ascii);
    for length in [0, 1, 64, BOOK_BYTES - 1] {
        let mut rivals = Rivals::holding(&vec![0; length]);
        let intake = Call::Intake(&PROFILE, &file.name, &file.bytes);
        assert_eq!(rivals.make_on_any(intake), Answer::Refused(900));
        assert_eq!(rivals.make_on_any(Call::Pair(b"ZS1")), Answer::Refused(10));
    }
}
