//! The report files: RKF on an order file, and OPE on a shipment's faulty
//! orders. That the calls are safe is for the same reason as those of a book.

use crate::book::{done, Book};
use crate::question::Call;
use crate::refusal::Refusal;
use crate::sys::{self, Reply};
use crate::{MOST_OPE_BYTES, MOST_RKF_BYTES};

/// Writes the report on one order file (RKF), and gives the whole file.
///
/// `own` is the identifier of the report itself, `created` its creation time as
/// the number yyyymmddhhmmss, and `source` the identifier of the order file.
/// `refusal` is 0 where that was accepted, faulty orders or not, and else the
/// number that its intake was refused with: 100 to 307, since the insurer takes
/// no other. No book has a part in it: a refused file is in none. It is refused
/// with 31 or not at all.
///
/// ```
/// use buntingraft::write_rkf;
///
/// let rkf = write_rkf(b"PP0000000001", 20_201_007_130_000, b"ZS1", 103)?;
/// let (header, record) = rkf.split_at(53);
/// assert!(header.ends_with(b"|EPE|ZS1|0"));
/// assert_eq!(record, b"\r\n2|1|0|103");
///
/// let refusal = write_rkf(b"PP0000000001", 20_201_007_130_000, b"ZS1", 901).unwrap_err();
/// assert_eq!(refusal.number(), 31);
/// # Ok::<(), buntingraft::Refusal>(())
/// ```
pub fn write_rkf(
    own: &[u8],
    created: u64,
    source: &[u8],
    refusal: u64,
) -> Result<Vec<u8>, Refusal> {
    whole(MOST_RKF_BYTES, |output| {
        write_rkf_into(own, created, source, refusal, output)
    })
}

/// [`write_rkf`] for a caller who has an output, of
/// [`MOST_RKF_BYTES`](crate::MOST_RKF_BYTES) for any. Gives the length written;
/// the bytes behind it stay as they are. A refusal, with 31 or then 30, leaves
/// every byte of the output.
pub fn write_rkf_into(
    own: &[u8],
    created: u64,
    source: &[u8],
    refusal: u64,
    output: &mut [u8],
) -> Result<usize, Refusal> {
    let reply = rkf_reply(own, created, source, refusal, output);
    done(Call::WriteRkf, reply).map(|(length, _)| length as usize)
}

/// The archive's reply to an RKF.
fn rkf_reply(own: &[u8], created: u64, source: &[u8], refusal: u64, output: &mut [u8]) -> Reply {
    // SAFETY: `own` and `source` are shared slices, `output` is an exclusive
    // one.
    unsafe {
        sys::buntingraft_write_rkf(
            own.as_ptr(),
            own.len(),
            created,
            source.as_ptr(),
            source.len(),
            refusal,
            output.as_mut_ptr(),
            output.len(),
        )
    }
}

impl<M: AsRef<[u8]>> Book<M> {
    /// Writes the report on a shipment's faulty orders (OPE), one record for
    /// each, and gives the whole file; without faulty orders it is a header
    /// alone. It is refused with 10, 13 or 31, and leaves the book as it is.
    ///
    /// `own` and `created` are those of the report itself, as in
    /// [`write_rkf`](crate::write_rkf). `codes` has the insurer's code for each
    /// fault 1 to 10, each 308 to 336; only the codes of faults that some order
    /// of the shipment has are looked at, and the others may be anything or
    /// missing.
    pub fn write_ope(
        &self,
        id: &[u8],
        own: &[u8],
        created: u64,
        codes: &[u64],
    ) -> Result<Vec<u8>, Refusal> {
        whole(MOST_OPE_BYTES, |output| {
            self.write_ope_into(id, own, created, codes, output)
        })
    }

    /// [`write_ope`](Book::write_ope) for a caller who has an output, of
    /// [`MOST_OPE_BYTES`](crate::MOST_OPE_BYTES) for any shipment. Gives the
    /// length written; the bytes behind it stay as they are. A refusal, with
    /// 10, 13, 31 or then 30, leaves every byte of the output.
    pub fn write_ope_into(
        &self,
        id: &[u8],
        own: &[u8],
        created: u64,
        codes: &[u64],
        output: &mut [u8],
    ) -> Result<usize, Refusal> {
        let reply = ope_reply(self.bytes(), id, own, created, codes, output);
        done(Call::WriteOpe, reply).map(|(length, _)| length as usize)
    }
}

/// The archive's reply to an OPE.
fn ope_reply(
    book: &[u8],
    id: &[u8],
    own: &[u8],
    created: u64,
    codes: &[u64],
    output: &mut [u8],
) -> Reply {
    // SAFETY: `book`, `id`, `own` and `codes` are shared slices, `output` is an
    // exclusive one.
    unsafe {
        sys::buntingraft_write_ope(
            book.as_ptr(),
            book.len(),
            id.as_ptr(),
            id.len(),
            own.as_ptr(),
            own.len(),
            created,
            codes.as_ptr(),
            codes.len(),
            output.as_mut_ptr(),
            output.len(),
        )
    }
}

/// The whole text of a call that writes at most so many bytes.
pub(crate) fn whole(
    most: usize,
    write: impl FnOnce(&mut [u8]) -> Result<usize, Refusal>,
) -> Result<Vec<u8>, Refusal> {
    let mut text = vec![0; most];
    let length = write(&mut text)?;
    text.truncate(length);
    Ok(text)
}

#[cfg(test)]
mod tests {
    use super::*;

    const OWN: &[u8] = b"PP0000000001";
    const CREATED: u64 = 20_201_007_130_000;

    /// A reply as three numbers.
    fn numbers(reply: Reply) -> [u64; 3] {
        [reply.status, reply.first, reply.second]
    }

    #[test]
    fn a_reply_to_an_rkf_has_its_length_or_its_number_and_0() {
        let reply = |refusal, length| {
            let mut output = [0; MOST_RKF_BYTES];
            numbers(rkf_reply(
                OWN,
                CREATED,
                b"ZS1",
                refusal,
                &mut output[..length],
            ))
        };
        assert_eq!(reply(0, 53), [0, 53, 0]);
        assert_eq!(reply(103, 83), [0, 64, 0]);
        assert_eq!(reply(901, 83), [2, 31, 0]);
        assert_eq!(reply(0, 52), [2, 30, 0]);
        assert_eq!(reply(0, 0), [2, 30, 0]);
    }

    #[test]
    fn a_reply_to_an_ope_has_its_length_or_its_number_and_0() {
        let mut book = Book::empty();
        let reply = |book: &[u8], own, length| {
            let mut output = [0; 99];
            numbers(ope_reply(
                book,
                b"ZS1",
                own,
                CREATED,
                &[],
                &mut output[..length],
            ))
        };
        assert_eq!(reply(book.bytes(), OWN, 99), [2, 13, 0]);
        assert_eq!(reply(&[], OWN, 99), [2, 10, 0]);
        crate::book::tests::enter(&mut book, "ZS1");
        assert_eq!(reply(book.bytes(), OWN, 99), [0, 53, 0]);
        assert_eq!(reply(book.bytes(), b"PP", 99), [2, 31, 0]);
        assert_eq!(reply(book.bytes(), OWN, 52), [2, 30, 0]);
    }

    #[test]
    fn a_whole_file_has_no_byte_behind_it() {
        let file = write_rkf(OWN, CREATED, b"ZS1", 0);
        assert_eq!(file.map(|file| file.len()), Ok(53));
        let longest = write_rkf(&[b'z'; 17], CREATED, &[b'z'; 17], 307);
        assert_eq!(longest.map(|file| file.len()), Ok(MOST_RKF_BYTES));
    }
}
