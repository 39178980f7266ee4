//! A list of calls under way on both books, held to every promise after each of
//! them. A difference ends the program, with the list's title, the calls so far
//! and what differs.

use crate::amounts::{Asked, Found};
use crate::coverage::Coverage;
use crate::extra;
use crate::layout::LENGTH;
use crate::ledger::Ledger;
use crate::numbers::Numbers;
use crate::output::Written;
use crate::replay::{self, After};
use crate::report::Report;
use crate::sheet::{Lending, Taken};
use crate::telling::{end_with, told};
use crate::twin::Twin;
use buntingraft::MOST_STORED_BYTES;
use reference::{Answer, Book, Call};

/// A list of calls under way.
pub struct Run<'a> {
    title: String,
    made: Vec<(Call, Answer)>,
    moves: Vec<usize>,
    twin: Twin,
    aside: Twin,
    held: Book,
    ledger: Ledger,
    /// What was covered, in this run and those before it.
    pub coverage: &'a mut Coverage,
}

impl<'a> Run<'a> {
    /// A list that begins with an empty book, in memory with so many bytes to
    /// spare.
    pub fn begin(title: String, spare: usize, coverage: &'a mut Coverage) -> Run<'a> {
        let twin = match Twin::empty(LENGTH + spare) {
            Ok(twin) => twin,
            Err(difference) => end_with(&format!("{title}\n{difference}")),
        };
        coverage.note_answer(buntingraft::Call::MakeEmpty, &Answer::Done);
        Run {
            title,
            made: Vec::new(),
            moves: Vec::new(),
            aside: twin.clone(),
            twin,
            held: Book::empty(),
            ledger: Ledger::default(),
            coverage,
        }
    }

    /// The book that the lent bytes hold, which is also the reference's.
    pub fn book(&self) -> &Book {
        &self.held
    }

    /// The bytes of the lent book.
    pub fn bytes(&self) -> &[u8] {
        self.twin.lent.bytes()
    }

    /// Makes the next call of the list, and gives its answer.
    pub fn call(&mut self, call: Call) -> Answer {
        let answer = match self.twin.call(&call) {
            Ok(answer) => answer,
            Err(difference) => self.differs(&told(&call), &difference),
        };
        if let Err(difference) = self.enter(&call, &answer) {
            let difference = format!("both answer {answer:?}, but {difference}");
            self.differs(&told(&call), &difference);
        }
        note(&call, &answer, Some(&self.held), self.coverage);
        self.made.push((call, answer));
        answer
    }

    /// Reads the lent bytes and the sheet after a call, and enters it in the
    /// ledger.
    fn enter(&mut self, call: &Call, answer: &Answer) -> Result<(), String> {
        let after = self.twin.held()?.ok_or("the book is not sound")?;
        let lending = Lending::for_book(&after);
        let taken = self.twin.sheet(&lending);
        let taken = taken.map_err(|difference| format!("{lending}: {difference}"))?;
        self.coverage.note_sheet(&taken);
        let rows = taken.map_err(|number| format!("{lending}: refused with {number}"))?;
        let before = &self.held;
        self.ledger.enter(call, answer, before, &after, &rows)?;
        self.held = after;
        Ok(())
    }

    /// Takes the sheet of the book as it stands, and gives what it answers.
    pub fn sheet(&mut self, lending: &Lending) -> Taken {
        match self.twin.sheet(lending) {
            Ok(taken) => {
                self.coverage.note_sheet(&taken);
                taken
            }
            Err(difference) => self.differs(&lending.to_string(), &difference),
        }
    }

    /// Takes the sheet, whose answer is known from the papers: the number of
    /// rows filled, or of its refusal.
    pub fn expect_sheet(&mut self, lending: &Lending, expected: Result<usize, u32>) {
        let answer = self.sheet(lending).map(|rows| rows.len());
        if answer != expected {
            let difference = format!("both answer {answer:?}, not {expected:?}");
            self.differs(&lending.to_string(), &difference);
        }
    }

    /// Writes a report of the book as it stands into an output of so many bytes,
    /// and gives what it answers.
    pub fn report(&mut self, report: &Report, length: usize) -> Written {
        match self.twin.report(report, length) {
            Ok(written) => {
                let book = self.twin.book.as_ref();
                self.coverage.note_report(report, book, &written);
                written
            }
            Err(difference) => self.differs(&report.told(length), &difference),
        }
    }

    /// Writes a report, whose answer is known from the papers: the length
    /// written, or the number of its refusal.
    pub fn expect_report(&mut self, report: &Report, length: usize, expected: Result<usize, u32>) {
        let answer = self.report(report, length).map(|file| file.len());
        if answer != expected {
            let difference = format!("both answer {answer:?}, not {expected:?}");
            self.differs(&report.told(length), &difference);
        }
    }

    /// Asks for the amount that makes a total, whose answer is known from the
    /// book.
    pub fn expect_amount(&mut self, asked: Asked, expected: Found) {
        let difference = match asked.compared() {
            Ok(found) if found == expected => return self.coverage.note_amount(&found),
            Ok(found) => format!("both answer {found:?}, not {expected:?}"),
            Err(difference) => difference,
        };
        self.differs(&asked.to_string(), &difference);
    }

    /// Stores the book as it stands into an output of so many bytes, and gives
    /// what it answers.
    pub fn store(&mut self, length: usize) -> Written {
        match self.twin.store(length) {
            Ok(written) => {
                self.coverage
                    .note_written(buntingraft::Call::Store, &written);
                written
            }
            Err(difference) => self.differs(&format!("store in {length} bytes"), &difference),
        }
    }

    /// The stored bytes of the book as it stands.
    pub fn stored(&mut self) -> Vec<u8> {
        let stored = self.store(MOST_STORED_BYTES);
        stored.unwrap_or_else(|number| self.differs("store", &format!("refused with {number}")))
    }

    /// Stores memory that holds these bytes into an output of so many, with an
    /// answer that is known from the papers: the length written, or the number of
    /// its refusal.
    pub fn store_elsewhere(&mut self, memory: &[u8], length: usize, expected: Result<usize, u32>) {
        let difference = match Twin::reading(memory).store(length) {
            Ok(written) => {
                let call = buntingraft::Call::Store;
                self.coverage.note_written(call, &written);
                let answer = written.map(|stored| stored.len());
                if answer == expected {
                    return;
                }
                format!("both answer {answer:?}, not {expected:?}")
            }
            Err(difference) => difference,
        };
        self.differs(&format!("store in {length} bytes"), &difference);
    }

    /// Loads these bytes into a copy of the memory as it stands, and gives what
    /// that answers.
    pub fn load_aside(&mut self, stored: &[u8]) -> Answer {
        self.aside.copy_from(&self.twin);
        let loaded = self.aside.load(stored);
        self.loaded(stored, loaded)
    }

    /// Loads these bytes into memory that holds these, and gives what that
    /// answers.
    pub fn load_elsewhere(&mut self, stored: &[u8], memory: &[u8]) -> Answer {
        let loaded = Twin::reading(memory).load(stored);
        self.loaded(stored, loaded)
    }

    /// The answer to a load, if there was no difference.
    fn loaded(&mut self, stored: &[u8], loaded: Result<Answer, String>) -> Answer {
        match loaded {
            Ok(answer) => {
                self.coverage.note_answer(buntingraft::Call::Load, &answer);
                answer
            }
            Err(difference) => {
                let stored = stored.escape_ascii();
                self.differs(&format!("load \"{stored}\""), &difference)
            }
        }
    }

    /// Stores the book and loads it into other memory, that holds these bytes:
    /// there the list goes on.
    pub fn move_to(&mut self, memory: &[u8]) {
        let stored = self.stored();
        let mut there = Twin::reading(memory);
        let loaded = there.load(&stored);
        let answer = self.loaded(&stored, loaded);
        if answer != Answer::Done || there.book.as_ref() != Some(&self.held) {
            self.differs("store and load", &format!("{answer:?}, or another book"));
        }
        self.moves.push(self.made.len());
        self.aside = there.clone();
        self.twin = there;
    }

    /// Makes the next call, whose answer is known from the papers.
    pub fn expect(&mut self, call: Call, expected: Answer) {
        let answer = self.call(call.clone());
        if answer != expected {
            self.made.pop();
            let difference = format!("both answer {answer:?}, not {expected:?}");
            self.differs(&told(&call), &difference);
        }
    }

    /// Makes a call, whose answer is known from the papers, on a copy of the
    /// book as it stands.
    pub fn expect_aside(&mut self, call: &Call, expected: Answer) {
        self.aside.copy_from(&self.twin);
        let difference = match self.aside.call(call) {
            Ok(answer) if answer == expected => {
                let after = self.aside.book.as_ref();
                return note(call, &answer, after, self.coverage);
            }
            Ok(answer) => format!("both answer {answer:?}, not {expected:?}"),
            Err(difference) => difference,
        };
        self.differs(&told(call), &difference);
    }

    /// Replays the list so far from its beginning, as a journal, and near
    /// misses of that: without the moves of its book, where it has some, and then
    /// to an equal book, else to the same bytes.
    pub fn replay(&mut self, numbers: &mut Numbers) {
        let bytes = self.twin.lent.bytes();
        let after = if self.moves.is_empty() {
            After::Bytes(bytes)
        } else {
            After::Book(bytes)
        };
        let replayed = replay::check_list(&self.made, after, numbers, self.coverage);
        if let Err(difference) = replayed {
            self.differs("replay", &difference);
        }
    }

    /// Makes each of these calls on a copy of the book as it stands; counted as
    /// calls.
    pub fn attempt(&mut self, calls: &[Call]) {
        let coverage = &mut self.coverage;
        let tried = self
            .twin
            .try_each(&mut self.aside, calls, |call, answer, after| {
                note(call, answer, after, coverage)
            });
        if let Err((call, difference)) = tried {
            self.differs(&told(call), &difference);
        }
    }

    /// Makes each of these calls on a copy of the book as it stands; counted as
    /// probes.
    pub fn probe(&mut self, calls: &[Call]) {
        let tried = self.twin.try_each(&mut self.aside, calls, |_, _, _| {});
        if let Err((call, difference)) = tried {
            self.differs(&told(call), &difference);
        }
        self.coverage.probes += calls.len() as u64;
    }

    /// Ends the program with the difference that a call, a sheet, a report, an
    /// amount or stored bytes showed.
    fn differs(&self, what: &str, difference: &str) -> ! {
        let mut so_far = String::new();
        for (place, (call, answer)) in self.made.iter().enumerate() {
            so_far += self.told_moves(place);
            so_far += &format!("  {} -> {answer:?}\n", told(call));
        }
        so_far += self.told_moves(self.made.len());
        end_with(&format!(
            "{}\n{so_far}  {what} -> ?\n{difference}",
            self.title
        ));
    }

    /// Says that the book was moved before the call at a place, if it was.
    fn told_moves(&self, place: usize) -> &'static str {
        if self.moves.contains(&place) {
            "  store, and load elsewhere -> Done\n"
        } else {
            ""
        }
    }
}

/// Counts a call with its answer; the records of a file are also judged around their
/// extra fields.
fn note(call: &Call, answer: &Answer, after: Option<&Book>, coverage: &mut Coverage) {
    coverage.note(call, answer, after);
    extra::records(call, answer, after, coverage);
}
