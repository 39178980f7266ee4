//! A journal replayed, held to the same calls made one by one.

use crate::archive;
use crate::coverage::Coverage;
use crate::journal::{has_place, read, recounted, written, Entry};
use crate::layout::{sound_book, LENGTH};
use crate::lent::Lent;
use crate::numbers::Numbers;
use crate::twin::Twin;
use buntingraft::{Journal, Money, NotReplayed, Reply, Route};
use reference::{Answer, Call};
use std::ops::Range;

/// What stands in a table that no reply was told in.
const UNTOLD: Reply = Reply {
    status: 77,
    first: 78,
    second: 79,
};

/// How many places lie behind the table that is lent.
const BEHIND: usize = 2;

/// What a journal's calls left when they were made one by one.
#[derive(Clone, Copy)]
pub enum After<'a> {
    /// These bytes.
    Bytes(&'a [u8]),
    /// The book in these bytes, which were those of other memory before: bytes
    /// that no field uses may be others.
    Book(&'a [u8]),
}

impl<'a> After<'a> {
    /// The bytes.
    fn bytes(self) -> &'a [u8] {
        match self {
            After::Bytes(bytes) | After::Book(bytes) => bytes,
        }
    }

    /// Do these bytes hold the same?
    fn is_in(self, bytes: &[u8]) -> bool {
        match self {
            After::Bytes(after) => bytes == after,
            After::Book(after) => sound_book(bytes) == sound_book(after),
        }
    }
}

/// An answer as a reply.
fn reply(answer: &Answer) -> Reply {
    let (status, first, second) = match *answer {
        Answer::Done | Answer::Paired => (0, 0, 0),
        Answer::Accepted { orders, faulty } => (0, orders, faulty),
        Answer::FeeEarned(sum) | Answer::AmountPaid(sum) => (0, sum, 0),
        Answer::Returned { sum, count } => (0, sum, count),
        Answer::Short { k, o } => (1, k, o),
        Answer::Refused(number) => (2, u64::from(number), 0),
    };
    Reply {
        status,
        first,
        second,
    }
}

/// Memory of so many bytes with an empty book, as a list of calls begins with.
fn empty(length: usize) -> Lent {
    let twin = Twin::empty(length).expect("an empty book was made before");
    twin.lent
}

/// Is the journal replayed in an empty book, with the replies to these answers
/// and this after? The table has as many places as there are answers,
/// and so many more.
pub fn is_replayed(
    journal: &[u8],
    answers: &[Answer],
    after: After,
    more: usize,
    coverage: &mut Coverage,
) -> Result<(), String> {
    let mut lent = empty(after.bytes().len());
    let mut table = vec![UNTOLD; answers.len() + more + BEHIND];
    let places = table.len() - BEHIND;
    let made = lent.replay(journal, &mut table[..places])?;
    coverage.note_replay(&made);
    if made != Ok(answers.len()) {
        return Err(format!(
            "a replay of {} calls gives {made:?}",
            answers.len()
        ));
    }
    let untold = std::iter::repeat_n(UNTOLD, more + BEHIND);
    let expected: Vec<Reply> = answers.iter().map(reply).chain(untold).collect();
    if table != expected {
        return Err(format!("replies {table:?}, not {expected:?}"));
    }
    if !after.is_in(lent.bytes()) {
        return Err("a replay leaves something else than the same calls".into());
    }
    Ok(())
}

/// Is the journal not replayed in this memory, for this reason, and is nothing
/// changed?
fn is_refused(
    journal: &[u8],
    places: usize,
    lent: &mut Lent,
    reason: NotReplayed,
    coverage: &mut Coverage,
) -> Result<(), String> {
    let before = lent.bytes().to_vec();
    let mut table = vec![UNTOLD; places + BEHIND];
    let made = lent.replay(journal, &mut table[..places])?;
    coverage.note_replay(&made);
    if made != Err(reason) {
        return Err(format!("{made:?}, not {reason:?}"));
    }
    if lent.bytes() != before || table.iter().any(|reply| *reply != UNTOLD) {
        return Err(format!("{reason:?}, and something changed"));
    }
    Ok(())
}

/// Journals that are none, in an empty book with room for every reply.
fn not_whole(journals: &[Vec<u8>], places: usize, coverage: &mut Coverage) -> Result<(), String> {
    let mut lent = empty(LENGTH);
    for journal in journals {
        let reason = NotReplayed::NotWhole;
        is_refused(journal, places, &mut lent, reason, coverage)?;
    }
    Ok(())
}

/// Replays the calls of a list that was made one by one, and near misses of its
/// journal.
pub fn check_list(
    made: &[(Call, Answer)],
    after: After,
    numbers: &mut Numbers,
    coverage: &mut Coverage,
) -> Result<(), String> {
    let kept: Vec<_> = made.iter().filter(|(call, _)| has_place(call)).collect();
    let answers: Vec<Answer> = kept.iter().map(|(_, answer)| *answer).collect();
    let entry = |call: &Call, numbers: &mut Numbers| Entry::of(call).varied(numbers);
    let entries: Vec<Entry> = kept.iter().map(|(call, _)| entry(call, numbers)).collect();
    let journal = written(&entries);
    is_replayed(&journal, &answers, after, numbers.below(3), coverage)?;
    let count = entries.len();
    let cut = numbers.below(journal.len());
    let mut longer = journal.clone();
    longer.push(0);
    let mut misses = vec![
        journal[..journal.len() - 1].to_vec(),
        journal[..cut].to_vec(),
        recounted(&journal, count as u64 + 1),
        longer,
    ];
    if count > 0 {
        misses.push(recounted(&journal, count as u64 - 1));
        let mut overfull = entries.clone();
        let at = numbers.below(count);
        overfull[at] = overfull[at].clone().overfull(numbers);
        misses.push(written(&overfull));
        check_places(&journal, count - 1..count, coverage)?;
    }
    if count < made.len() {
        let all: Vec<Entry> = made.iter().map(|(call, _)| entry(call, numbers)).collect();
        misses.push(written(&all));
    }
    not_whole(&misses, made.len(), coverage)?;
    let mut lent = Lent::holding(after.bytes());
    if after.bytes()[0] > 0 {
        let reason = NotReplayed::NotEmpty;
        is_refused(&journal, count, &mut lent, reason, coverage)?;
    }
    Ok(())
}

/// Does the replay read these bytes as docs/LAYOUT.md has a journal? Where
/// they are one its calls are made one by one too, on both books.
pub fn check_bytes(journal: &[u8], coverage: &mut Coverage) -> Result<(), String> {
    let Some(calls) = read(journal) else {
        return not_whole(&[journal.to_vec()], journal.len(), coverage);
    };
    let mut twin = Twin::empty(LENGTH)?;
    let mut answers = Vec::new();
    for call in &calls {
        let answer = twin.call(call)?;
        coverage.note(call, &answer, twin.book.as_ref());
        answers.push(answer);
    }
    let after = After::Bytes(twin.lent.bytes());
    is_replayed(journal, &answers, after, 1, coverage)
}

/// A good journal, and tables of these lengths, which are too short for its
/// replies.
pub fn check_places(
    journal: &[u8],
    lengths: Range<usize>,
    coverage: &mut Coverage,
) -> Result<(), String> {
    let mut lent = empty(LENGTH);
    for places in lengths {
        let reason = NotReplayed::TooFewPlaces;
        is_refused(journal, places, &mut lent, reason, coverage)?;
    }
    Ok(())
}

/// Memory that holds no empty book, and a good journal.
pub fn check_memory(journal: &[u8], bytes: &[u8], coverage: &mut Coverage) -> Result<(), String> {
    let mut lent = Lent::holding(bytes);
    let reason = NotReplayed::NotEmpty;
    is_refused(journal, journal.len(), &mut lent, reason, coverage)
}

/// The bindings' journal of these calls, each of which has a place in one.
pub fn by_the_bindings(calls: &[Call]) -> Journal {
    let mut journal = Journal::new();
    for call in calls {
        enter(&mut journal, call);
    }
    journal
}

/// Enters a call in a journal of the bindings.
fn enter(journal: &mut Journal, call: &Call) {
    match call {
        Call::Intake {
            profile,
            name,
            file,
        } => journal.intake(&archive::profile(profile), name, file),
        Call::Transfer { title, amount } => journal.transfer(title, *amount),
        Call::GoAhead { identifier } => journal.go_ahead(identifier),
        Call::Pair { identifier } => journal.pair(identifier),
        Call::Close { identifier } => journal.close(identifier),
        Call::Post { identifier, order } => journal.post(identifier, *order),
        Call::Pay { identifier, order } => journal.pay(identifier, *order),
        Call::MarkUndelivered { identifier, order } => journal.mark_undelivered(identifier, *order),
        Call::Withdraw { identifier, order } => journal.withdraw(identifier, *order),
        Call::Return {
            identifier,
            route,
            money,
        } => {
            let (route, money) = (Route::ALL[*route as usize], Money::ALL[*money as usize]);
            journal.give_back(identifier, route, money);
        }
    }
}
