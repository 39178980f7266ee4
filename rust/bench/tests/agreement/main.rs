//! The twin does what the archive does: the same calls on the same bytes give
//! the same answers and leave the same bytes.

mod directed;
mod random;
mod reports;
mod sheets;
mod soundness;
mod stores;

use bench::calls::{Answer, Archive, Call, Rival, Twin};
use buntingraft::BOOK_BYTES;

/// One memory for each of the rivals.
struct Rivals {
    archive: Vec<u8>,
    twin: Vec<u8>,
    bare_twin: Vec<u8>,
}

impl Rivals {
    /// An empty book in memory that held something, and is longer than a book.
    fn new() -> Rivals {
        let mut memory = vec![0xAA; BOOK_BYTES + 5];
        memory[0] = 0;
        Rivals::holding(&memory)
    }

    /// This memory.
    fn holding(memory: &[u8]) -> Rivals {
        Rivals {
            archive: memory.to_vec(),
            twin: memory.to_vec(),
            bare_twin: memory.to_vec(),
        }
    }

    /// The answer of all to a call on a sound book.
    fn make(&mut self, call: Call) -> Answer {
        let answer = self.make_on_any(call);
        let bare = Twin::<false>::make(&mut self.bare_twin, &call);
        assert_eq!(answer, bare, "without soundness, {call:?}");
        assert!(self.twin == self.bare_twin, "without soundness, {call:?}");
        answer
    }

    /// The answer of those that judge soundness to a call on any memory.
    fn make_on_any(&mut self, call: Call) -> Answer {
        let answer = Archive::make(&mut self.archive, &call);
        assert_eq!(
            answer,
            Twin::<true>::make(&mut self.twin, &call),
            "{call:?}"
        );
        assert!(self.archive == self.twin, "{call:?} left other bytes");
        answer
    }
}
