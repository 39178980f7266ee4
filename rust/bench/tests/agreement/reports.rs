//! The report files of both are alike, and so is what a refused one leaves.

use crate::Rivals;
use bench::calls::Call;
use bench::files::{order_file, Records, PROFILE};
use bench::reports::{agreed_ope, agreed_rkf, Ope, Rkf};
use buntingraft::{MOST_OPE_BYTES, MOST_RKF_BYTES};

/// A table with another code for each fault.
const CODES: [u64; 10] = [308, 309, 310, 311, 312, 313, 314, 315, 316, 336];

/// An OPE that nothing but its shipment can refuse.
fn ope(id: &[u8]) -> Ope<'_> {
    Ope {
        id,
        own: b"PP0000000003",
        created: 20_201_007_131_500,
        codes: &CODES,
    }
}

/// An RKF that nothing but its verdict can refuse.
fn rkf(refusal: u64) -> Rkf<'static> {
    Rkf {
        own: b"PP0000000001",
        created: 20_201_007_130_000,
        source: b"ZS1",
        refusal,
    }
}

/// Texts that are no identifiers.
const NO_IDENTIFIERS: [&[u8]; 6] = [b"", b"PP", b"P11", b"PP_", b"PP1 ", &[b'P'; 18]];

/// Numbers that are no creation time.
const NO_TIMES: [u64; 9] = [
    0,
    20_201_007,
    19_991_231_235_959,
    21_000_101_000_000,
    20_210_229_000_000,
    20_201_007_240_000,
    20_201_007_006_000,
    20_201_007_000_060,
    u64::MAX,
];

/// The OPE of this shipment of a sound book: exact, a byte too short and longer,
/// and with values that cannot stand in it.
pub fn agree_on_ope(book: &[u8], id: &[u8]) {
    let good = ope(id);
    let Ok(length) = agreed_ope(book, &good, MOST_OPE_BYTES) else {
        assert_eq!(agreed_ope(book, &good, 0), Err(13));
        return;
    };
    assert_eq!(agreed_ope(book, &good, length), Ok(length));
    assert_eq!(agreed_ope(book, &good, length - 1), Err(30));
    assert_eq!(agreed_ope(book, &good, 0), Err(30));
    for own in NO_IDENTIFIERS {
        assert_eq!(agreed_ope(book, &Ope { own, ..good }, 0), Err(31));
    }
    for created in NO_TIMES {
        assert_eq!(agreed_ope(book, &Ope { created, ..good }, 0), Err(31));
    }
    for place in 0..CODES.len() {
        for code in [0, 307, 308, 337, u64::MAX] {
            let mut codes = CODES;
            codes[place] = code;
            let codes = &codes;
            let _ = agreed_ope(book, &Ope { codes, ..good }, length);
        }
        let codes = &CODES[..place];
        let _ = agreed_ope(book, &Ope { codes, ..good }, length);
    }
}

#[test]
fn every_verdict_on_a_file_is_reported_alike() {
    for refusal in (0..1_000).chain([1 << 32, u64::MAX]) {
        let expected = match refusal {
            0 => Ok(53),
            100..=307 => Ok(64),
            _ => Err(31),
        };
        assert_eq!(agreed_rkf(&rkf(refusal), MOST_RKF_BYTES), expected);
    }
}

#[test]
fn an_rkf_is_refused_alike() {
    for length in 0..=64 {
        let expected = if length < 64 { Err(30) } else { Ok(64) };
        assert_eq!(agreed_rkf(&rkf(103), length), expected);
    }
    for text in NO_IDENTIFIERS {
        let good = rkf(0);
        assert_eq!(agreed_rkf(&Rkf { own: text, ..good }, 99), Err(31));
        assert_eq!(
            agreed_rkf(
                &Rkf {
                    source: text,
                    ..good
                },
                99
            ),
            Err(31)
        );
    }
    for created in NO_TIMES {
        assert_eq!(agreed_rkf(&Rkf { created, ..rkf(0) }, 0), Err(31));
    }
}

#[test]
fn faulty_orders_are_reported_alike() {
    for (orders, records) in [
        (1, Records::Polish),
        (1, Records::AllFaulty),
        (9, Records::AllFaulty),
        (10, Records::AllFaulty),
        (120, Records::Faulty),
        (1_000, Records::AllFaulty),
        (2_048, Records::AllFaulty),
    ] {
        let mut rivals = Rivals::new();
        let file = order_file("ZSabcdefgh0123456", orders, records);
        rivals.make(Call::Intake(&PROFILE, &file.name, &file.bytes));
        agree_on_ope(&rivals.archive, b"ZSabcdefgh0123456");
        agree_on_ope(&rivals.archive, b"ZSabcdefgh012345");
    }
}

#[test]
fn memory_that_is_no_sound_book_has_no_report() {
    for memory in [vec![], vec![0; 100], vec![0xFF; 30_000]] {
        assert_eq!(agreed_ope(&memory, &ope(b"ZS1"), 0), Err(10));
    }
}
