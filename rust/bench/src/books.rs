//! Books in the stages in which the calls are measured.

use bench::calls::{Answer, Archive, Call, Rival};
use bench::files::{drawn, fees, is_faulty, order_file, Records};
use buntingraft::{Profile, BOOK_BYTES};

/// Books of the same shipments in different stages.
pub struct Books {
    /// The identifier of the last shipment.
    pub id: Vec<u8>,
    /// The title of a transfer of K for it.
    pub title: Vec<u8>,
    /// The same title with a long date.
    pub long_title: Vec<u8>,
    /// All shipments Waiting, with money and without a go-ahead.
    pub waiting: Vec<u8>,
    /// The same with a go-ahead wherever there are faults.
    pub ready: Vec<u8>,
    /// All shipments Paired, with free money of both kinds.
    pub paired: Vec<u8>,
    ids: Vec<String>,
    orders: usize,
}

/// Makes a call that is not refused.
fn make(book: &mut [u8], call: Call) {
    let answer = Archive::make(book, &call);
    assert!(!matches!(answer, Answer::Refused(_)), "{answer:?}");
}

/// The title with its date's century.
fn with_century(title: &[u8]) -> Vec<u8> {
    let mut parts: Vec<&[u8]> = title.split(|byte| *byte == b'-').collect();
    let date = [b"20", parts[1]].concat();
    parts[1] = &date;
    parts.join(&b'-')
}

impl Books {
    /// Books of so many shipments with so many orders each, taken in by this
    /// profile.
    pub fn new(shipments: usize, orders: usize, records: Records, profile: &Profile) -> Books {
        let ids: Vec<String> = (1..=shipments).map(|n| format!("SHIPMENT{n:02}")).collect();
        let mut waiting = vec![0; BOOK_BYTES];
        let mut title = Vec::new();
        for id in &ids {
            let file = order_file(id, orders, records);
            make(&mut waiting, Call::Intake(profile, &file.name, &file.bytes));
            for (ending, need) in [(b"-O", fees(profile, orders)), (b"-K", file.sum)] {
                title = [file.name.as_slice(), ending].concat();
                make(&mut waiting, Call::Transfer(&title, need + 1_000));
            }
        }
        let (mut ready, mut paired) = (waiting.clone(), waiting.clone());
        for id in ids.iter().map(String::as_bytes) {
            if records == Records::Faulty {
                make(&mut ready, Call::GoAhead(id));
                make(&mut paired, Call::GoAhead(id));
            }
            make(&mut paired, Call::Pair(id));
        }
        Books {
            id: ids[shipments - 1].clone().into_bytes(),
            long_title: with_century(&title),
            title,
            waiting,
            ready,
            paired,
            ids,
            orders,
        }
    }

    /// The paired book with orders in every state: the faulty ones as they were
    /// taken in, the others as their fate has it.
    pub fn in_all_states(&self) -> Vec<u8> {
        let mut book = self.paired.clone();
        for id in self.ids.iter().map(String::as_bytes) {
            for order in (1..=self.orders).filter(|order| !is_faulty(*order)) {
                let (fate, order) = (fate(order), order as u64);
                if matches!(fate, Fate::Posted | Fate::Paid | Fate::Undelivered) {
                    make(&mut book, Call::Post(id, order));
                }
                match fate {
                    Fate::Open | Fate::Posted => {}
                    Fate::Paid => make(&mut book, Call::Pay(id, order)),
                    Fate::Undelivered => make(&mut book, Call::MarkUndelivered(id, order)),
                    Fate::Withdrawn => make(&mut book, Call::Withdraw(id, order)),
                }
            }
        }
        book
    }

    /// The last order of a shipment that has this fate.
    pub fn last(&self, fated: Fate) -> u64 {
        let mut orders = (1..=self.orders).rev();
        let last = orders.find(|order| !is_faulty(*order) && fate(*order) == fated);
        last.expect("a full shipment has every fate") as u64
    }
}

/// What became of an order without faults.
#[derive(Clone, Copy, PartialEq, Eq)]
pub enum Fate {
    /// Nothing.
    Open,
    /// It is on its way.
    Posted,
    /// It was paid.
    Paid,
    /// It was posted and came back.
    Undelivered,
    /// It was withdrawn.
    Withdrawn,
}

/// The fate of an order in the book of all states.
fn fate(order: usize) -> Fate {
    let fates = [
        Fate::Open,
        Fate::Posted,
        Fate::Paid,
        Fate::Undelivered,
        Fate::Withdrawn,
    ];
    fates[drawn(order, 2, 5)]
}
