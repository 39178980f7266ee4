//! A call made on the archive, through the bindings, and told as the reference
//! tells it.

use crate::report::{Kind, Report};
use buntingraft::{write_rkf_into, Book, Pairing, Profile, Refusal, SheetRow, Totals};
use reference::{Answer, Call};

/// Which of the archive's calls this is.
pub fn kind(call: &Call) -> buntingraft::Call {
    match call {
        Call::Intake { .. } => buntingraft::Call::Intake,
        Call::Transfer { .. } => buntingraft::Call::Transfer,
        Call::GoAhead { .. } => buntingraft::Call::GoAhead,
        Call::Pair { .. } => buntingraft::Call::Pair,
        Call::Close { .. } => buntingraft::Call::Close,
        Call::Post { .. } => buntingraft::Call::Post,
        Call::Pay { .. } => buntingraft::Call::Pay,
        Call::MarkUndelivered { .. } => buntingraft::Call::MarkUndelivered,
        Call::Withdraw { .. } => buntingraft::Call::Withdraw,
        Call::Return { .. } => buntingraft::Call::Return,
    }
}

/// Makes an empty book in these bytes.
pub fn make_empty(bytes: &mut [u8]) -> Result<Answer, Refusal> {
    Book::make_empty_in(bytes).map(|_| Answer::Done)
}

/// Takes the sheet of the book in these bytes, and gives the number of rows
/// filled.
pub fn sheet(bytes: &[u8], table: &mut [SheetRow], totals: &mut Totals) -> Result<usize, Refusal> {
    Book::lent(bytes).sheet_into(table, totals)
}

/// Writes a report into this output, an OPE of the book in these bytes, and
/// gives the length written.
pub fn report(bytes: &[u8], report: &Report, output: &mut [u8]) -> Result<usize, Refusal> {
    let (own, created, source) = (&report.own, report.created, &report.source);
    match &report.kind {
        Kind::Rkf(refusal) => write_rkf_into(own, created, source, *refusal, output),
        Kind::Ope(codes) => {
            let book = Book::lent(bytes);
            book.write_ope_into(source, own, created, codes, output)
        }
    }
}

/// Stores the book in these bytes, and gives the length written.
pub fn store(bytes: &[u8], output: &mut [u8]) -> Result<usize, Refusal> {
    Book::lent(bytes).store_into(output)
}

/// Loads a stored book into these bytes.
pub fn load(bytes: &mut [u8], stored: &[u8]) -> Result<Answer, Refusal> {
    Book::load_in(bytes, stored).map(|_| Answer::Done)
}

/// The archive's answer to a call on the book in these bytes.
pub fn answer(bytes: &mut [u8], call: &Call) -> Result<Answer, Refusal> {
    let mut book = Book::lent(bytes);
    let done = |()| Answer::Done;
    match call {
        Call::Intake {
            profile,
            name,
            file,
        } => intake(&mut book, profile, name, file),
        Call::Transfer { title, amount } => book.transfer(title, *amount).map(done),
        Call::GoAhead { identifier } => book.go_ahead(identifier).map(done),
        Call::Pair { identifier } => book.pair(identifier).map(paired),
        Call::Close { identifier } => book.close(identifier).map(done),
        Call::Post { identifier, order } => book
            .post(identifier, *order)
            .map(|fee| Answer::FeeEarned(fee.0)),
        Call::Pay { identifier, order } => book
            .pay(identifier, *order)
            .map(|amount| Answer::AmountPaid(amount.0)),
        Call::MarkUndelivered { identifier, order } => {
            book.mark_undelivered(identifier, *order).map(done)
        }
        Call::Withdraw { identifier, order } => book.withdraw(identifier, *order).map(done),
        Call::Return {
            identifier,
            route,
            money,
        } => give_back(&mut book, identifier, *route, *money),
    }
}

/// The bindings' form of a profile.
pub fn profile(profile: &reference::Profile) -> Profile {
    Profile {
        today: profile.today,
        flat: profile.flat,
        fields: profile.fields,
        rates: profile.rates,
    }
}

/// An intake.
fn intake(
    book: &mut Book<&mut [u8]>,
    stated: &reference::Profile,
    name: &[u8],
    file: &[u8],
) -> Result<Answer, Refusal> {
    let accepted = book.intake(&profile(stated), name, file)?;
    Ok(Answer::Accepted {
        orders: accepted.orders,
        faulty: accepted.faulty,
    })
}

/// A pairing's answer.
fn paired(pairing: Pairing) -> Answer {
    match pairing {
        Pairing::Paired => Answer::Paired,
        Pairing::Short { k, o } => Answer::Short { k: k.0, o: o.0 },
    }
}

/// A return, by the numbers of its route and money.
fn give_back(
    book: &mut Book<&mut [u8]>,
    identifier: &[u8],
    route: u64,
    money: u64,
) -> Result<Answer, Refusal> {
    let returned = book.give_back_by_number(identifier, route, money)?;
    Ok(Answer::Returned {
        sum: returned.sum,
        count: returned.count,
    })
}
