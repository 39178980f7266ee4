//! The report files: RKF on an order file, and OPE on a shipment's faulty
//! orders.

use super::calendar::is_moment;
use super::layout::{identifier, is_faulty};
use super::text::is_identifier;
use super::{Book, Refusal};

/// Writes the report on an order file and answers its length (31, 30).
pub fn write_rkf(
    own: &[u8],
    created: u64,
    source: &[u8],
    refusal: u64,
    output: &mut [u8],
) -> Result<usize, Refusal> {
    let is_code = (100..=307).contains(&refusal);
    let is_fit = is_identifier(own) && is_moment(created) && is_identifier(source);
    if !is_fit || refusal != 0 && !is_code {
        return Err(31);
    }
    let header = Header {
        code: b"RKF",
        own,
        created,
        source,
        last: u64::from(refusal == 0),
    };
    let record = if is_code { record_length(1, 0) } else { 0 };
    let length = header.length() + record;
    let mut output = Output::of(output, length)?;
    output.put_header(&header);
    if is_code {
        output.put_record(1, 0, refusal);
    }
    Ok(length)
}

impl<const SOUND: bool> Book<'_, SOUND> {
    /// Writes the report on the shipment's faulty orders and answers its length
    /// (10, 13, 31, 30).
    pub fn write_ope(
        &mut self,
        id: &[u8],
        own: &[u8],
        created: u64,
        codes: &[u64],
        output: &mut [u8],
    ) -> Result<usize, Refusal> {
        let (head, rows) = self.shipment(id)?;
        if !is_identifier(own) || !is_moment(created) {
            return Err(31);
        }
        let (faulty, records) = measure(rows.states, codes)?;
        let header = Header {
            code: b"OPE",
            own,
            created,
            source: identifier(head),
            last: faulty,
        };
        let length = header.length() + records;
        let mut output = Output::of(output, length)?;
        output.put_header(&header);
        let mut running = 0;
        for (order, state) in (1..).zip(&*rows.states) {
            if is_faulty(state) {
                running += 1;
                output.put_record(running, order, codes[fault_index(*state)]);
            }
        }
        Ok(length)
    }
}

/// The place of a faulty order's fault in a table of codes.
fn fault_index(state: u8) -> usize {
    usize::from(state / 4) - 3
}

/// How many orders are faulty, and how long their records are together (31
/// unless each has a code).
fn measure(states: &[u8], codes: &[u64]) -> Result<(u64, usize), Refusal> {
    let (mut faulty, mut length) = (0, 0);
    for (order, state) in (1..).zip(states) {
        if is_faulty(state) {
            match codes.get(fault_index(*state)) {
                Some(308..=336) => {}
                _ => return Err(31),
            }
            faulty += 1;
            length += record_length(faulty, order);
        }
    }
    Ok((faulty, length))
}

/// The values of a header.
struct Header<'a> {
    code: &'a [u8; 3],
    own: &'a [u8],
    created: u64,
    source: &'a [u8],
    last: u64,
}

impl Header<'_> {
    /// Its length, with the byte mark.
    fn length(&self) -> usize {
        37 + self.own.len() + self.source.len() + digits(self.last)
    }
}

/// The length of a record, with the line end before it.
fn record_length(running: u64, about: u64) -> usize {
    9 + digits(running) + digits(about)
}

/// How many digits a number of up to six digits has.
fn digits(number: u64) -> usize {
    match number {
        0..=9 => 1,
        10..=99 => 2,
        100..=999 => 3,
        1_000..=9_999 => 4,
        10_000..=99_999 => 5,
        _ => 6,
    }
}

/// A lent output that is filled from its start.
struct Output<'o> {
    bytes: &'o mut [u8],
    filled: usize,
}

impl<'o> Output<'o> {
    /// The first bytes of an output, as many as there are to write (30).
    fn of(output: &'o mut [u8], length: usize) -> Result<Self, Refusal> {
        let bytes = output.get_mut(..length).ok_or(30u64)?;
        Ok(Output { bytes, filled: 0 })
    }

    /// Writes a text.
    fn put(&mut self, text: &[u8]) {
        self.bytes[self.filled..][..text.len()].copy_from_slice(text);
        self.filled += text.len();
    }

    /// Writes a number in so many digits.
    fn put_digits(&mut self, number: u64, digits: usize) {
        let mut left = number;
        for place in self.bytes[self.filled..][..digits].iter_mut().rev() {
            *place = b'0' + (left % 10) as u8;
            left /= 10;
        }
        self.filled += digits;
    }

    /// Writes a number of up to six digits without leading zeros.
    fn put_number(&mut self, number: u64) {
        self.put_digits(number, digits(number));
    }

    /// Writes the byte mark and a header.
    fn put_header(&mut self, header: &Header) {
        self.put(b"\xEF\xBB\xBF1|PP|");
        self.put(header.code);
        self.put(b"|1.0|");
        self.put(header.own);
        self.put(b"|");
        self.put_digits(header.created, 14);
        self.put(b"|EPE|");
        self.put(header.source);
        self.put(b"|");
        self.put_number(header.last);
    }

    /// Writes a line end and a record.
    fn put_record(&mut self, running: u64, about: u64, code: u64) {
        self.put(b"\r\n2|");
        self.put_number(running);
        self.put(b"|");
        self.put_number(about);
        self.put(b"|");
        self.put_digits(code, 3);
    }
}
