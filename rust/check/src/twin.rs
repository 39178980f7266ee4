//! Lent memory and the reference's book beside it, both given the same calls.

use crate::layout::sound_book;
use crate::lent::{leaves_the_book, Lent};
use crate::output::{self, Written};
use crate::report::{self, Report};
use crate::sheet::{self, Lending, Taken};
use reference::{Answer, Book, Call};

/// Lent memory, and the book that it must hold: none where it is no sound book.
#[derive(Clone)]
pub struct Twin {
    /// The lent memory.
    pub lent: Lent,
    /// The reference's book.
    pub book: Option<Book>,
}

/// What a call answers where there is no sound book: "Profile within the ranges
/// above? 905", then 900; or 10.
fn answer_without_a_book(call: &Call) -> Answer {
    match call {
        Call::Intake { profile, .. } => match reference::file::ask_profile(profile) {
            Err(number) => Answer::Refused(number),
            Ok(()) => Answer::Refused(900),
        },
        _ => Answer::Refused(10),
    }
}

impl Twin {
    /// An empty book, made by the archive in memory of so many bytes that held
    /// something else.
    pub fn empty(length: usize) -> Result<Twin, String> {
        let mut lent = Lent::holding(&vec![0xC3; length]);
        match lent.make_empty()? {
            Answer::Done => {}
            answer => return Err(format!("make empty answers {answer:?}")),
        }
        let book = Some(Book::empty());
        let twin = Twin { lent, book };
        twin.held().map(|_| twin)
    }

    /// These bytes, and the book in them, if there is one.
    pub fn reading(bytes: &[u8]) -> Twin {
        Twin {
            lent: Lent::holding(bytes),
            book: sound_book(bytes),
        }
    }

    /// Takes over the state of another, whose memory has the same length.
    pub fn copy_from(&mut self, other: &Twin) {
        self.lent.copy_from(&other.lent);
        self.book.clone_from(&other.book);
    }

    /// Makes a call on both, and gives the answer, or the difference.
    pub fn call(&mut self, call: &Call) -> Result<Answer, String> {
        let archive = self.lent.call(call)?;
        let reference = match &mut self.book {
            Some(book) => book.call(call),
            None => answer_without_a_book(call),
        };
        if archive != reference {
            return Err(format!("archive {archive:?}, reference {reference:?}"));
        }
        if !leaves_the_book(&archive) {
            self.held()
                .map_err(|difference| format!("both answer {archive:?}, but {difference}"))?;
        }
        Ok(archive)
    }

    /// Takes the sheet of both, and gives what it answers, or the difference.
    pub fn sheet(&mut self, lending: &Lending) -> Result<Taken, String> {
        sheet::take(&mut self.lent, self.book.as_ref(), lending)
    }

    /// Writes a report of both into outputs of so many bytes, and gives what it
    /// answers, or the difference.
    pub fn report(&mut self, report: &Report, length: usize) -> Result<Written, String> {
        report::write(&mut self.lent, self.book.as_ref(), report, length)
    }

    /// Stores both into outputs of so many bytes, and gives what it answers, or
    /// the difference. What was stored is the book's again.
    pub fn store(&mut self, length: usize) -> Result<Written, String> {
        let (lent, book) = (&mut self.lent, &self.book);
        let archive = |output: &mut [u8]| lent.store(output);
        let reference = |output: &mut [u8]| book.as_ref().ok_or(10u32)?.store_into(output);
        let written = output::write(length, archive, reference)?;
        match &written {
            Ok(stored) if Book::unstored(stored) != self.book => {
                let stored = stored.escape_ascii();
                Err(format!("{stored} is another book's"))
            }
            _ => Ok(written),
        }
    }

    /// Loads a stored book into both, and gives what it answers, or the
    /// difference.
    pub fn load(&mut self, stored: &[u8]) -> Result<Answer, String> {
        let archive = self.lent.load(stored)?;
        let mut loaded = Book::empty();
        let reference = match loaded.load(self.lent.bytes().len(), stored) {
            Ok(()) => {
                self.book = Some(loaded);
                Answer::Done
            }
            Err(number) => Answer::Refused(number),
        };
        if archive != reference {
            return Err(format!("archive {archive:?}, reference {reference:?}"));
        }
        self.held()
            .map_err(|difference| format!("both answer {archive:?}, but {difference}"))?;
        Ok(archive)
    }

    /// Makes each of these calls on a copy of both, kept in `aside`, and tells
    /// each answer with the book after it; or gives the call that shows a
    /// difference.
    pub fn try_each<'c>(
        &self,
        aside: &mut Twin,
        calls: &'c [Call],
        mut tell: impl FnMut(&Call, &Answer, Option<&Book>),
    ) -> Result<(), (&'c Call, String)> {
        aside.copy_from(self);
        for call in calls {
            let answer = aside.call(call).map_err(|difference| (call, difference))?;
            tell(call, &answer, aside.book.as_ref());
            if !leaves_the_book(&answer) {
                aside.copy_from(self);
            }
        }
        Ok(())
    }

    /// The book that the bytes hold, if it is the reference's, field for field.
    pub fn held(&self) -> Result<Option<Book>, String> {
        let held = sound_book(self.lent.bytes());
        if held == self.book {
            return Ok(held);
        }
        Err(format!(
            "the bytes hold {held:#?}\nthe reference has {:#?}",
            self.book
        ))
    }
}
