//! The book that lent bytes hold, read by docs/LAYOUT.md alone.

use reference::{Book, Fee, Name, Row, Shipment, Stage, State, Tariff, Waits};
use std::ops::Range;

/// How many bytes a book takes, by docs/LAYOUT.md.
pub const LENGTH: usize = 24_704;

/// Where the heads begin.
pub const HEADS: usize = 64;

/// The length of a head.
pub const HEAD: usize = 66;

/// Where the columns of the rows begin.
pub const ROWS: usize = 2_176;

/// A column of the rows: where it begins, and how many of its bytes an order
/// has.
#[derive(Clone, Copy)]
pub struct Column {
    from: usize,
    width: usize,
}

impl Column {
    /// The place of an order's bytes; the orders of the whole book are counted
    /// from 0.
    pub fn of(self, order: usize) -> Range<usize> {
        let from = self.from + self.width * order;
        from..from + self.width
    }
}

/// The columns of the rows whose numbers take more than a byte: amounts, fees
/// and remainders.
pub const ROW_NUMBERS: [Column; 3] = [AMOUNTS, FEES, REMAINDERS];

const AMOUNTS: Column = Column {
    from: ROWS,
    width: 4,
};
const FEES: Column = Column {
    from: 10_368,
    width: 4,
};
const REMAINDERS: Column = Column {
    from: 18_560,
    width: 2,
};
const STATES: Column = Column {
    from: 22_656,
    width: 1,
};

/// The places of an order's bytes in all four columns.
pub fn row_places(order: usize) -> impl Iterator<Item = usize> {
    [AMOUNTS, FEES, REMAINDERS, STATES]
        .into_iter()
        .flat_map(move |column| column.of(order))
}

/// The place of the identifier in a head, its length behind it.
pub const IDENTIFIER: Range<usize> = 0..18;

/// The place of the flat part in a head.
pub const FLAT: Range<usize> = 24..28;

/// The place of the rate in a head.
pub const RATE: Range<usize> = 64..66;

const DATE: Range<usize> = 18..22;
const ORDERS: Range<usize> = 30..32;
const ACCEPTED_K: Range<usize> = 32..40;
const ACCEPTED_O: Range<usize> = 40..48;
const RETURNED_K: Range<usize> = 48..56;
const RETURNED_O: Range<usize> = 56..64;

/// The places of all numbers of a head that take more than a byte.
pub const HEAD_NUMBERS: [Range<usize>; 8] = [
    DATE, FLAT, ORDERS, ACCEPTED_K, ACCEPTED_O, RETURNED_K, RETURNED_O, RATE,
];

const MOST_SHIPMENTS: usize = 32;
const MOST_ROWS: usize = 2_048;

/// The book in these bytes, if they hold a sound one: every byte that is used
/// has a meaning, and what it means is sound.
pub fn sound_book(bytes: &[u8]) -> Option<Book> {
    read(bytes).filter(Book::is_sound)
}

/// The book in these bytes, unless they are too short or a byte that is used
/// means nothing.
fn read(bytes: &[u8]) -> Option<Book> {
    if bytes.len() < LENGTH || usize::from(bytes[0]) > MOST_SHIPMENTS {
        return None;
    }
    let mut rows = (0..MOST_ROWS).map(|order| read_row(bytes, order));
    let heads = bytes[HEADS..ROWS].chunks_exact(HEAD);
    let mut shipments = Vec::new();
    for head in heads.take(usize::from(bytes[0])) {
        shipments.push(read_shipment(head, &mut rows)?);
    }
    Some(Book { shipments })
}

/// The number that bytes store, least byte first.
fn number(bytes: &[u8]) -> u64 {
    bytes
        .iter()
        .rev()
        .fold(0, |number, byte| number << 8 | u64::from(*byte))
}

/// The shipment of a head, with its orders from the rows that are left.
fn read_shipment(head: &[u8], rows: &mut impl Iterator<Item = Option<Row>>) -> Option<Shipment> {
    let mut orders = Vec::new();
    for _ in 0..number(&head[ORDERS]) {
        orders.push(rows.next()??);
    }
    Some(Shipment {
        name: Name {
            identifier: read_identifier(&head[IDENTIFIER])?,
            date: number(&head[DATE]),
            payment: head[22],
            kind: head[23],
        },
        tariff: Tariff {
            flat: number(&head[FLAT]),
            rate: number(&head[RATE]),
        },
        stage: match head[28] {
            0 => Stage::Waiting,
            1 => Stage::Paired,
            2 => Stage::Closed,
            _ => return None,
        },
        go_ahead: match head[29] {
            0 => false,
            1 => true,
            _ => return None,
        },
        accepted_k: number(&head[ACCEPTED_K]),
        accepted_o: number(&head[ACCEPTED_O]),
        returned_k: number(&head[RETURNED_K]),
        returned_o: number(&head[RETURNED_O]),
        rows: orders,
    })
}

/// The identifier in 17 bytes with its length behind them, unless something
/// else than zeros follows it.
fn read_identifier(bytes: &[u8]) -> Option<Vec<u8>> {
    let (length, bytes) = bytes.split_last()?;
    let (identifier, behind) = bytes.split_at_checked(usize::from(*length))?;
    let padded = behind.iter().all(|byte| *byte == 0);
    padded.then(|| identifier.to_vec())
}

/// The row of an order of the whole book.
fn read_row(bytes: &[u8], order: usize) -> Option<Row> {
    let in_column = |column: Column| &bytes[column.of(order)];
    Some(Row {
        amount: number(in_column(AMOUNTS)),
        fee: Fee {
            fee: number(in_column(FEES)),
            remainder: number(in_column(REMAINDERS)),
        },
        state: read_state(in_column(STATES)[0])?,
    })
}

/// What a byte of state means.
fn read_state(byte: u8) -> Option<State> {
    let waits = Waits {
        k: byte % 2 == 1,
        o: byte / 2 % 2 == 1,
    };
    match byte {
        0 => Some(State::Open),
        1 => Some(State::Posted),
        2 => Some(State::Paid),
        4 | 5 => Some(State::Undelivered { k_waits: byte == 5 }),
        8..=11 => Some(State::Withdrawn { waits }),
        12..=51 => Some(State::Faulty {
            fault: (byte - 8) / 4,
            waits,
        }),
        _ => None,
    }
}
