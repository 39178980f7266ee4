//! Report files, to be written by either book.

use crate::twin;

/// What the report on an order file is asked with.
#[derive(Clone, Copy, Debug)]
pub struct Rkf<'a> {
    /// Its own identifier.
    pub own: &'a [u8],
    /// When it was created.
    pub created: u64,
    /// The order file's identifier.
    pub source: &'a [u8],
    /// The number that the file was refused with, or 0.
    pub refusal: u64,
}

/// What the report on a shipment's faulty orders is asked with.
#[derive(Clone, Copy, Debug)]
pub struct Ope<'a> {
    /// The shipment's identifier.
    pub id: &'a [u8],
    /// Its own identifier.
    pub own: &'a [u8],
    /// When it was created.
    pub created: u64,
    /// The codes of the faults.
    pub codes: &'a [u64],
}

/// The length written, or the refusal's number.
type Written = Result<usize, u64>;

/// The archive's RKF.
pub fn archive_rkf(rkf: &Rkf, output: &mut [u8]) -> Written {
    let written =
        buntingraft::write_rkf_into(rkf.own, rkf.created, rkf.source, rkf.refusal, output);
    written.map_err(|refusal| refusal.number())
}

/// The twin's.
pub fn twin_rkf(rkf: &Rkf, output: &mut [u8]) -> Written {
    twin::write_rkf(rkf.own, rkf.created, rkf.source, rkf.refusal, output)
}

/// The archive's OPE.
pub fn archive_ope(memory: &mut [u8], ope: &Ope, output: &mut [u8]) -> Written {
    let book = buntingraft::Book::lent(memory);
    let written = book.write_ope_into(ope.id, ope.own, ope.created, ope.codes, output);
    written.map_err(|refusal| refusal.number())
}

/// The twin's.
pub fn twin_ope(memory: &mut [u8], ope: &Ope, output: &mut [u8]) -> Written {
    let mut book = twin::Book::<true>::lent(memory);
    book.write_ope(ope.id, ope.own, ope.created, ope.codes, output)
}

/// What both answer for an RKF in an output of so many bytes; both leave the
/// same bytes there.
pub fn agreed_rkf(rkf: &Rkf, length: usize) -> Written {
    agreed(length, [archive_rkf, twin_rkf], |write, output| {
        write(rkf, output)
    })
}

/// What both answer for an OPE of a book; both leave the same bytes in the
/// output, and the book as it is.
pub fn agreed_ope(book: &[u8], ope: &Ope, length: usize) -> Written {
    agreed(length, [archive_ope, twin_ope], |write, output| {
        let mut memory = book.to_vec();
        let written = write(&mut memory, ope, output);
        assert!(memory == book, "{ope:?} changed the book");
        written
    })
}

/// What both writers answer, each with an output of its own of so many bytes.
fn agreed<W>(length: usize, writers: [W; 2], write: impl Fn(W, &mut [u8]) -> Written) -> Written {
    let [archive, twin] = writers.map(|writer| {
        let mut output = vec![0xAA; length];
        let written = write(writer, &mut output);
        (written, output)
    });
    assert_eq!(archive, twin);
    archive.0
}
