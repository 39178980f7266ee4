//! Lines parted at CR LF, and fields parted at bars.

/// A line without its CR, given what stands before its LF or the text's end;
/// none where that LF is a stray one.
pub fn line(piece: &str, is_last: bool) -> Option<&str> {
    if is_last {
        Some(piece)
    } else {
        piece.strip_suffix('\r')
    }
}

/// Fills the table with the fields of a line. False where there are not just
/// as many, or a stray CR spoils the line.
pub fn cut<'a>(line: &'a str, table: &mut [&'a str]) -> bool {
    let mut places = table.iter_mut();
    let mut from = 0;
    for (at, byte) in line.bytes().enumerate() {
        if byte == b'|' {
            let Some(place) = places.next() else {
                return false;
            };
            *place = &line[from..at];
            from = at + 1;
        } else if byte == b'\r' {
            return false;
        }
    }
    let [last] = places.into_slice() else {
        return false;
    };
    *last = &line[from..];
    true
}
