//! Lent outputs.

/// "30 when the lent output is too short [...] Whatever writes to a lent
/// output, here or later, answers the length written; bytes behind it, and
/// after a refusal all, stay as they were." (document 02, A2)
pub(crate) fn write_to(output: &mut [u8], text: &[u8]) -> Result<usize, u32> {
    let written = output.get_mut(..text.len()).ok_or(30u32)?;
    written.copy_from_slice(text);
    Ok(text.len())
}
