//! Memory that is no book made by calls: too short, garbage, or a book with
//! bytes changed by somebody else. Where it is a sound book all the same, the
//! calls, the sheet, an OPE and storing do what the reference does with that book;
//! else they are refused with 10 (an intake with 900) and leave every byte.

mod corrupt;
mod fields;
mod garbage;
mod lengths;

use crate::calls::{close, give_back_by_number, go_ahead, pair};
use crate::coverage::Coverage;
use crate::draft::Draft;
use crate::lendings;
use crate::naming::{long_title, title, MONEYS};
use crate::probe::deeds_on;
use crate::reports;
use crate::run::Run;
use crate::stages;
use crate::storing;
use crate::telling::{end_with, told};
use crate::twin::Twin;
use reference::{Book, Call, MOST_RATE};

/// Tries all such memory; `seed` draws what is random in it.
pub fn check(seed: u64, coverage: &mut Coverage) {
    let mut run = Run::begin("a book of all stages".into(), 0, coverage);
    stages::enter_all(&mut run);
    let (rich, book) = (run.bytes().to_vec(), run.book().clone());
    stages::fill(&mut run);
    let (full, full_book) = (run.bytes().to_vec(), run.book().clone());
    lengths::check(&rich, &book, coverage);
    garbage::check(seed, &rich, &book, coverage);
    corrupt::check(seed, &rich, &book, coverage);
    corrupt::check_full(&full, &full_book, coverage);
    fields::check(&rich, &book, coverage);
}

/// Every call, for the shipment at a place of a book: an intake that would be
/// accepted, with a rate or without, and one with a bad profile, a transfer, and
/// each other call; with its orders, the routes, the moneys, both forms of a title
/// and 905 and 907 in turn.
fn every_call(book: &Book, place: usize, turn: usize) -> Vec<Call> {
    let shipment = &book.shipments[place];
    let identifier = &shipment.name.identifier;
    let id = String::from_utf8_lossy(identifier);
    let titled = [title, long_title][turn / 2 % 2];
    let good = Draft::new("XX1", &[100]).with_tariff(350, [0, 125][turn % 2]);
    let mut spoilt = good.clone();
    match turn % 2 {
        0 => spoilt.profile.fields = 33,
        _ => spoilt.profile.rates[turn / 2 % 5] = MOST_RATE + 1,
    }
    let mut calls = vec![
        good.intake(),
        spoilt.intake(),
        Call::Transfer {
            title: titled(&shipment.name, MONEYS[turn % 2]),
            amount: 1,
        },
        go_ahead(&id),
        pair(&id),
        close(&id),
    ];
    let order = 1 + turn % shipment.rows.len();
    calls.extend(deeds_on(identifier, order as u64));
    let (route, money) = (1 + turn as u64 % 3, turn as u64 / 3 % 2);
    calls.push(give_back_by_number(&id, 0, money));
    calls.push(give_back_by_number(&id, route, money));
    calls
}

/// Every call, for the shipments of a book in turn.
fn calls_in_turn(book: &Book, turn: usize) -> Vec<Call> {
    let count = book.shipments.len();
    every_call(book, turn % count, turn / count)
}

/// Makes each call on a copy of this memory, takes its sheet, writes an OPE of it,
/// and stores it. `what` says which memory it is, should a difference show.
fn try_calls(twin: &Twin, calls: &[Call], what: impl Fn() -> String, desk: &mut Desk) {
    let coverage = &mut *desk.coverage;
    let tried = twin.try_each(&mut desk.aside, calls, |call, answer, after| {
        coverage.note(call, answer, after)
    });
    if let Err((call, difference)) = tried {
        let (what, call) = (what(), told(call));
        end_with(&format!("{what}\n  {call} -> ?\n{difference}"));
    }
    desk.aside.copy_from(twin);
    let lending = lendings::in_turn(desk.coverage.memories);
    match desk.aside.sheet(&lending) {
        Ok(taken) => desk.coverage.note_sheet(&taken),
        Err(difference) => end_with(&format!("{}\n  {lending} -> ?\n{difference}", what())),
    }
    let book = twin.book.as_ref();
    let (report, length) = reports::in_turn(book, desk.coverage.memories);
    match desk.aside.report(&report, length) {
        Ok(written) => desk.coverage.note_report(&report, book, &written),
        Err(difference) => {
            let (what, report) = (what(), report.told(length));
            end_with(&format!("{what}\n  {report} -> ?\n{difference}"));
        }
    }
    let length = storing::length_in_turn(book, desk.coverage.memories);
    match desk.aside.store(length) {
        Ok(written) => desk
            .coverage
            .note_written(buntingraft::Call::Store, &written),
        Err(difference) => {
            let what = what();
            end_with(&format!(
                "{what}\n  store in {length} bytes -> ?\n{difference}"
            ));
        }
    }
    desk.coverage.memories += 1;
}

/// Where calls are tried: room for a copy of the memory, and the counts.
struct Desk<'a> {
    aside: Twin,
    coverage: &'a mut Coverage,
}

impl Desk<'_> {
    /// A desk with room for so many bytes.
    fn with_room(length: usize, coverage: &mut Coverage) -> Desk<'_> {
        Desk {
            aside: Twin::reading(&vec![0; length]),
            coverage,
        }
    }
}
