//! Lent memory between two guards, and what every call owes to its bytes: the
//! guards and what lies behind the book are never touched, and a refusal (or a
//! Short pairing, a sheet, a report or storing) leaves every byte.

use crate::archive;
use crate::layout::LENGTH;
use crate::report::Report;
use buntingraft::{Book, NotReplayed, Refusal, Reply, SheetRow, Totals};
use reference::{Answer, Call};
use std::fmt::Debug;

/// The length of each guard.
const GUARD: usize = 64;

/// Lent bytes with a guard on either side.
#[derive(Clone)]
pub struct Lent {
    memory: Vec<u8>,
    before: Vec<u8>,
}

/// Does this answer leave the book as it was?
pub fn leaves_the_book(answer: &Answer) -> bool {
    matches!(answer, Answer::Refused(_) | Answer::Short { .. })
}

impl Lent {
    /// Memory that holds these bytes.
    pub fn holding(bytes: &[u8]) -> Lent {
        let guard = |first: u8| (0..GUARD as u8).map(move |place| first ^ place);
        let memory: Vec<u8> = guard(0xA5)
            .chain(bytes.iter().copied())
            .chain(guard(0x5A))
            .collect();
        let before = memory.clone();
        Lent { memory, before }
    }

    /// The lent bytes.
    pub fn bytes(&self) -> &[u8] {
        &self.memory[GUARD..self.memory.len() - GUARD]
    }

    /// The lent bytes, to be written by somebody else than the archive.
    pub fn bytes_mut(&mut self) -> &mut [u8] {
        let end = self.memory.len() - GUARD;
        &mut self.memory[GUARD..end]
    }

    /// Takes over the bytes of another, of the same length.
    pub fn copy_from(&mut self, other: &Lent) {
        self.memory.copy_from_slice(&other.memory);
    }

    /// Makes an empty book, and says what was done or what was wrong with it.
    pub fn make_empty(&mut self) -> Result<Answer, String> {
        self.answered(buntingraft::Call::MakeEmpty, archive::make_empty)
    }

    /// Makes a call, and gives the archive's answer or what was wrong with it.
    pub fn call(&mut self, call: &Call) -> Result<Answer, String> {
        self.answered(archive::kind(call), |bytes| archive::answer(bytes, call))
    }

    /// Takes the sheet, and gives the number of rows filled, or of its refusal;
    /// or what was wrong with it.
    pub fn sheet(
        &mut self,
        table: &mut [SheetRow],
        totals: &mut Totals,
    ) -> Result<Result<usize, u32>, String> {
        let act = |bytes: &mut [u8]| archive::sheet(bytes, table, totals);
        let answer = self.asked(buntingraft::Call::Sheet, act)?;
        self.unchanged(answer)
    }

    /// Writes a report, and gives the length written, or the number of its
    /// refusal; or what was wrong with it.
    pub fn report(
        &mut self,
        report: &Report,
        output: &mut [u8],
    ) -> Result<Result<usize, u32>, String> {
        let act = |bytes: &mut [u8]| archive::report(bytes, report, output);
        let answer = self.asked(report.call(), act)?;
        self.unchanged(answer)
    }

    /// Stores the book, and gives the length written, or the number of its
    /// refusal; or what was wrong with it.
    pub fn store(&mut self, output: &mut [u8]) -> Result<Result<usize, u32>, String> {
        let act = |bytes: &mut [u8]| archive::store(bytes, output);
        let answer = self.asked(buntingraft::Call::Store, act)?;
        self.unchanged(answer)
    }

    /// Loads a stored book, and gives the archive's answer or what was wrong
    /// with it.
    pub fn load(&mut self, stored: &[u8]) -> Result<Answer, String> {
        self.answered(buntingraft::Call::Load, |bytes| {
            archive::load(bytes, stored)
        })
    }

    /// Replays a journal, and gives the number of calls made, or why none was;
    /// or what was wrong with it.
    pub fn replay(
        &mut self,
        journal: &[u8],
        table: &mut [Reply],
    ) -> Result<Result<usize, NotReplayed>, String> {
        let made = self.watched(|bytes| Book::lent(bytes).replay_into(journal, table))?;
        if made.is_err() {
            return self.unchanged(made);
        }
        Ok(made)
    }

    /// Makes a call that an answer tells of.
    fn answered(
        &mut self,
        kind: buntingraft::Call,
        act: impl FnOnce(&mut [u8]) -> Result<Answer, Refusal>,
    ) -> Result<Answer, String> {
        let answer = self.asked(kind, act)?.unwrap_or_else(Answer::Refused);
        if leaves_the_book(&answer) {
            self.unchanged(answer)
        } else {
            Ok(answer)
        }
    }

    /// Makes a call, whose refusal has a number that it asks with.
    fn asked<T: Debug>(
        &mut self,
        kind: buntingraft::Call,
        act: impl FnOnce(&mut [u8]) -> Result<T, Refusal>,
    ) -> Result<Result<T, u32>, String> {
        match self.watched(act)? {
            Ok(answer) => Ok(Ok(answer)),
            Err(refusal) => Ok(Err(number_in_table(kind, refusal)?)),
        }
    }

    /// Acts on the lent bytes, and holds that to what is owed to those around
    /// the book.
    fn watched<T: Debug>(&mut self, act: impl FnOnce(&mut [u8]) -> T) -> Result<T, String> {
        self.before.copy_from_slice(&self.memory);
        let answer = act(self.bytes_mut());
        let behind = self.memory.len().min(GUARD + LENGTH);
        if self.memory[..GUARD] != self.before[..GUARD] {
            return Err(format!("{answer:?}, and bytes before the book changed"));
        }
        if self.memory[behind..] != self.before[behind..] {
            return Err(format!("{answer:?}, and bytes behind the book changed"));
        }
        Ok(answer)
    }

    /// The answer to what was just done, if that left every byte as it was.
    fn unchanged<T: Debug>(&self, answer: T) -> Result<T, String> {
        if self.memory == self.before {
            Ok(answer)
        } else {
            Err(format!("{answer:?}, and the book changed"))
        }
    }
}

/// A refusal's number, if the call that was made asks a question with it.
pub fn number_in_table(kind: buntingraft::Call, refusal: Refusal) -> Result<u32, String> {
    let asks = |number| kind.questions().iter().any(|q| q.number == number);
    if refusal.call() == kind && asks(refusal.number()) {
        Ok(refusal.number() as u32)
    } else {
        Err(format!("{kind} has no such refusal: {refusal:?}"))
    }
}
