//! Report files read back field by field, by the layouts of document 003 alone
//! (sections 5.3.3.1 and 5.4.3.1), which two files share.

/// The values of a report file.
#[derive(Debug, PartialEq, Eq)]
pub struct Values {
    /// The code of the file.
    pub code: String,
    /// Its own identifier.
    pub own: Vec<u8>,
    /// When it was created, as yyyymmddhhmmss.
    pub created: u64,
    /// The identifier of the order file that it is about.
    pub source: Vec<u8>,
    /// The header's last field: an RKF's result, an OPE's number of orders.
    pub last: u64,
    /// Of each record its running number, the number of what it is about, and
    /// the code.
    pub records: Vec<[u64; 3]>,
}

/// The values in these bytes, if they are a report file: a byte mark and text
/// in lines, the header of nine fields, each record of four, and no constant or
/// number written otherwise.
pub fn read(file: &[u8]) -> Option<Values> {
    let text = std::str::from_utf8(file.strip_prefix(b"\xEF\xBB\xBF")?).ok()?;
    let mut lines = text.split("\r\n").map(fields);
    let header = lines.next()?;
    let ["1", "PP", code, "1.0", own, created, "EPE", source, last] = header[..] else {
        return None;
    };
    let mut records = Vec::new();
    for record in lines {
        let ["2", running, about, code] = record[..] else {
            return None;
        };
        records.push([number(running)?, number(about)?, number(code)?]);
    }
    Some(Values {
        code: code.into(),
        own: own.into(),
        created: number(created)?,
        source: source.into(),
        last: number(last)?,
        records,
    })
}

/// The fields of a line.
fn fields(line: &str) -> Vec<&str> {
    line.split('|').collect()
}

/// The number that a field writes, if it writes it as it must: digits without a
/// leading zero.
fn number(field: &str) -> Option<u64> {
    let number: u64 = field.parse().ok()?;
    (number.to_string() == field).then_some(number)
}
