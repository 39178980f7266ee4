//! "Judge the extra address field early" (document 02, A7). Words quoted here are
//! document 02's, but where document 01 is named.

use crate::file::{fields, first_fault, is_extra, is_spoilt};

/// What is said of an extra address field: "whether it is empty, whether it fails
/// question 7 and whether it starts or ends with a space".
#[derive(Clone, Copy, Debug, PartialEq, Eq)]
pub struct ExtraSaid {
    /// Whether it is empty.
    pub empty: bool,
    /// Whether it fails question 7.
    pub fails: bool,
    /// Whether it starts or ends with a space.
    pub spaced: bool,
}

impl ExtraSaid {
    /// What these bits say, as the library numbers them: 1 empty, 2 fails, 4 spaced.
    /// Other bits say nothing.
    pub fn from_bits(bits: u64) -> ExtraSaid {
        ExtraSaid {
            empty: bits % 2 == 1,
            fails: bits / 2 % 2 == 1,
            spaced: bits / 4 % 2 == 1,
        }
    }

    /// The bits that say this.
    pub fn bits(self) -> u64 {
        u64::from(self.empty) + 2 * u64::from(self.fails) + 4 * u64::from(self.spaced)
    }
}

/// "Judge it first, in a call of its own", whatever its bytes are.
pub fn judge_extra(extra: &[u8]) -> ExtraSaid {
    ExtraSaid {
        empty: extra.is_empty(),
        // "7 extra not empty and not `PR`, nor `SP_` or `PP_` with 1 to 5 digits"
        // (document 01)
        fails: !extra.is_empty() && !is_extra(extra),
        spaced: extra.starts_with(b" ") || extra.ends_with(b" "),
    }
}

/// "A second call gets this answer and the record's bytes before and after the
/// field, never the field itself, and gives the fault", if there is one; or a
/// question's number.
pub fn judge_around(said: ExtraSaid, before: &[u8], after: &[u8]) -> Result<Option<u8>, u32> {
    let Some(mut record) = fields_around(before, after) else {
        return Err(901);
    };
    // Field 12 is not there, and is not looked at.
    record.insert(11, "");
    Ok(first_fault(&record, said))
}

/// The fields before and after, "901 unless those before are eleven fields, each
/// ended by `|`, those after 7 to 20, each begun by one, all well-formed UTF-8
/// without CR or LF."
fn fields_around<'a>(before: &'a [u8], after: &'a [u8]) -> Option<Vec<&'a str>> {
    let before = std::str::from_utf8(before).ok()?;
    let after = std::str::from_utf8(after).ok()?;
    if is_spoilt(before) || is_spoilt(after) {
        return None;
    }
    // The last is ended by a bar, and the first begun by one, so all are.
    let before = fields(before.strip_suffix('|')?);
    let after = fields(after.strip_prefix('|')?);
    if before.len() != 11 || !(7..=20).contains(&after.len()) {
        return None;
    }
    Some([before, after].concat())
}
