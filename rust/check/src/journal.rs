//! Journals of calls, written and read by docs/LAYOUT.md alone.

use crate::numbers::Numbers;
use reference::{Call, Money, Profile, Route};

/// The bytes that say how many entries a journal has.
const COUNT: usize = 8;

/// How many numbers of an intake stand before its rates.
const BEFORE_RATES: usize = 7;

/// An entry before it is bytes: its call, its numbers and its texts.
#[derive(Clone)]
pub struct Entry {
    call: u8,
    numbers: Vec<u64>,
    texts: Vec<Vec<u8>>,
}

impl Entry {
    /// The entry of a call, with all that it takes and no more.
    pub fn of(call: &Call) -> Entry {
        let entry = |call, numbers: &[u64], texts: &[&Vec<u8>]| Entry {
            call,
            numbers: numbers.to_vec(),
            texts: texts.iter().map(|text| text.to_vec()).collect(),
        };
        match call {
            Call::Intake {
                profile,
                name,
                file,
            } => {
                let (flat, rates) = (&profile.flat[..], &profile.rates[..]);
                let numbers = [&[profile.today], flat, &[profile.fields], rates];
                entry(0, &numbers.concat(), &[name, file])
            }
            Call::Transfer { title, amount } => entry(1, &[*amount], &[title]),
            Call::GoAhead { identifier } => entry(2, &[], &[identifier]),
            Call::Pair { identifier } => entry(3, &[], &[identifier]),
            Call::Close { identifier } => entry(4, &[], &[identifier]),
            Call::Post { identifier, order } => entry(5, &[*order], &[identifier]),
            Call::Pay { identifier, order } => entry(6, &[*order], &[identifier]),
            Call::MarkUndelivered { identifier, order } => entry(7, &[*order], &[identifier]),
            Call::Withdraw { identifier, order } => entry(8, &[*order], &[identifier]),
            Call::Return {
                identifier,
                route,
                money,
            } => entry(9, &[*route, *money], &[identifier]),
        }
    }

    /// The same call said otherwise: what is 0 or empty at the end is now and
    /// then left out, all rates of an intake together more often.
    pub fn varied(mut self, numbers: &mut Numbers) -> Entry {
        if self.is_without_rates() && numbers.one_in(3) {
            self.numbers.truncate(BEFORE_RATES);
        }
        while self.numbers.last() == Some(&0) && numbers.one_in(2) {
            self.numbers.pop();
        }
        while self.texts.last().is_some_and(Vec::is_empty) && numbers.one_in(2) {
            self.texts.pop();
        }
        self
    }

    /// Is it an intake whose rates are all 0?
    fn is_without_rates(&self) -> bool {
        let rates = self.numbers.iter().skip(BEFORE_RATES);
        self.call == 0 && rates.copied().all(|rate| rate == 0)
    }

    /// The entry with so many numbers: the first of its own, or zeros behind them.
    pub fn with_numbers(mut self, count: usize) -> Entry {
        self.numbers.resize(count, 0);
        self
    }

    /// The entry with one number, or one text, more than its call takes.
    pub fn overfull(mut self, numbers: &mut Numbers) -> Entry {
        let (most_numbers, most_texts) = most(self.call);
        if numbers.one_in(2) {
            self.numbers.resize(most_numbers, 0);
            self.numbers.push(numbers.any());
        } else {
            self.texts.resize(most_texts, Vec::new());
            self.texts.push(vec![b'Z'; numbers.below(20)]);
        }
        self
    }

    /// Writes the entry behind others.
    fn write(&self, bytes: &mut Vec<u8>) {
        bytes.extend([self.call, self.numbers.len() as u8, self.texts.len() as u8]);
        let lengths = self.texts.iter().map(|text| text.len() as u64);
        for number in self.numbers.iter().copied().chain(lengths) {
            bytes.extend(number.to_le_bytes());
        }
        bytes.extend(self.texts.concat());
    }
}

/// A journal of these entries.
pub fn written(entries: &[Entry]) -> Vec<u8> {
    let mut bytes = (entries.len() as u64).to_le_bytes().to_vec();
    for entry in entries {
        entry.write(&mut bytes);
    }
    bytes
}

/// A journal with another number of entries in front.
pub fn recounted(journal: &[u8], count: u64) -> Vec<u8> {
    let mut bytes = journal.to_vec();
    bytes[..COUNT].copy_from_slice(&count.to_le_bytes());
    bytes
}

/// Takes so many bytes from the front, if they are there.
fn taken<'b>(bytes: &mut &'b [u8], count: u64) -> Option<&'b [u8]> {
    let (front, behind) = bytes.split_at_checked(usize::try_from(count).ok()?)?;
    *bytes = behind;
    Some(front)
}

/// Takes a number of eight bytes from the front.
fn number(bytes: &mut &[u8]) -> Option<u64> {
    let front = taken(bytes, 8)?.try_into().ok()?;
    Some(u64::from_le_bytes(front))
}

/// How many numbers and texts a call takes.
fn most(call: u8) -> (usize, usize) {
    match call {
        0 => (12, 2),
        2..=4 => (0, 1),
        9 => (2, 1),
        _ => (1, 1),
    }
}

/// Takes an entry from the front, and gives its call.
fn call(bytes: &mut &[u8]) -> Option<Call> {
    let &[call, numbers, texts] = taken(bytes, 3)? else {
        return None;
    };
    let mut all = |count: u8| {
        (0..count)
            .map(|_| number(bytes))
            .collect::<Option<Vec<_>>>()
    };
    let (numbers, lengths) = (all(numbers)?, all(texts)?);
    let texts = lengths.iter().map(|length| taken(bytes, *length));
    let texts = texts.collect::<Option<Vec<_>>>()?;
    let (most_numbers, most_texts) = most(call);
    if numbers.len() > most_numbers || texts.len() > most_texts {
        return None;
    }
    let number = |place: usize| numbers.get(place).copied().unwrap_or(0);
    let five = |from: usize| std::array::from_fn(|kind| number(from + kind));
    let text = |place: usize| texts.get(place).map_or(Vec::new(), |text| text.to_vec());
    let (identifier, order) = (text(0), number(0));
    Some(match call {
        0 => Call::Intake {
            profile: Profile {
                today: number(0),
                flat: five(1),
                fields: number(6),
                rates: five(BEFORE_RATES),
            },
            name: text(0),
            file: text(1),
        },
        1 => Call::Transfer {
            title: text(0),
            amount: number(0),
        },
        2 => Call::GoAhead { identifier },
        3 => Call::Pair { identifier },
        4 => Call::Close { identifier },
        5 => Call::Post { identifier, order },
        6 => Call::Pay { identifier, order },
        7 => Call::MarkUndelivered { identifier, order },
        8 => Call::Withdraw { identifier, order },
        9 => Call::Return {
            identifier,
            route: number(0),
            money: number(1),
        },
        _ => return None,
    })
}

/// Can a journal have this call? A return by a route or of a money that there
/// is not has no place in one.
pub fn has_place(call: &Call) -> bool {
    match call {
        Call::Return { route, money, .. } => {
            Route::from_number(*route).is_some() && Money::from_number(*money).is_some()
        }
        _ => true,
    }
}

/// The calls of a journal, if it is whole entries and nothing else.
pub fn read(journal: &[u8]) -> Option<Vec<Call>> {
    let mut bytes = journal;
    let count = number(&mut bytes)?;
    let mut calls = Vec::new();
    for _ in 0..count {
        calls.push(call(&mut bytes).filter(has_place)?);
    }
    bytes.is_empty().then_some(calls)
}
