//! Outputs between guards, lent to the archive and to the reference, which must
//! answer the same and leave the same bytes.

use crate::telling::text;

/// What a writer answers: the text written, or the number of its refusal.
pub type Written = Result<Vec<u8>, u32>;

/// How many bytes guard the output on either side.
const GUARD: usize = 64;

/// What the guards and so long an output hold before they are written to: no
/// byte of any text that is written, though stored books may have any.
fn untouched(length: usize) -> Vec<u8> {
    let places = 0..length + 2 * GUARD;
    places.map(|place| 0x80 | place as u8).collect()
}

/// Lends an output of so many bytes to each of the two, and gives what both
/// answer, or the difference.
pub fn write(
    length: usize,
    archive: impl FnOnce(&mut [u8]) -> Result<Result<usize, u32>, String>,
    reference: impl FnOnce(&mut [u8]) -> Result<usize, u32>,
) -> Result<Written, String> {
    let lent = GUARD..GUARD + length;
    let mut output = untouched(length);
    let mut after = output.clone();
    let archive = archive(&mut output[lent.clone()])?;
    let reference = reference(&mut after[lent]);
    if archive != reference {
        return Err(format!("archive {archive:?}, reference {reference:?}"));
    }
    if let Some(place) = (0..after.len()).find(|place| output[*place] != after[*place]) {
        let [output, after] = [output, after].map(|bytes| text(&bytes[GUARD..][..length]));
        return Err(format!(
            "{archive:?}, and byte {place} ({GUARD} bytes lie before the output) differs: \
             {output}\nnot {after}"
        ));
    }
    Ok(archive.map(|length| output[GUARD..][..length].to_vec()))
}
