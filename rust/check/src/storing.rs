//! Stored books: how they are spoilt, and which are stored and loaded at random
//! and in turn.

use crate::layout::{HEADS, LENGTH, ROWS};
use crate::numbers::Numbers;
use crate::run::Run;
use reference::Book;

/// Five values that a byte is changed to, the same perhaps among them.
pub fn five_others(good: u8) -> [u8; 5] {
    [good ^ 1, good ^ 0x80, 0, 0xFF, good.wrapping_add(1)]
}

/// These bytes with another one at a place.
pub fn with_byte(stored: &[u8], place: usize, byte: u8) -> Vec<u8> {
    let mut changed = stored.to_vec();
    changed[place] = byte;
    changed
}

/// How long the output for the stored bytes of memory that may hold anything is:
/// exact, or now and then a byte too short.
pub fn length_in_turn(book: Option<&Book>, turn: u64) -> usize {
    let needed = book.map_or(2, |book| book.stored().len());
    needed - usize::from(turn.is_multiple_of(7))
}

/// What is stored and loaded in a random list.
pub struct Storage {
    numbers: Numbers,
    moves: bool,
}

impl Storage {
    /// That of a list of a seed. Three lists in four move their book now and
    /// then.
    pub fn of(seed: u64, list: u64) -> Storage {
        let mut numbers = Numbers::of(seed.rotate_left(48), list);
        let moves = !numbers.one_in(4);
        Storage { numbers, moves }
    }

    /// After a call: the book is stored, into an output of any length; now and
    /// then its bytes are loaded with some changed, and now and then it moves to
    /// other memory.
    pub fn follow(&mut self, run: &mut Run) {
        let needed = run.book().stored().len();
        let _ = run.store(self.length(needed));
        if self.numbers.one_in(4) {
            let stored = self.spoilt(run.book().stored());
            let _ = run.load_aside(&stored);
        }
        if self.moves && self.numbers.one_in(8) {
            run.move_to(&self.memory(run.bytes()));
        }
    }

    /// How long the output for so many bytes is: a byte too short, exact, longer,
    /// or anything up to that.
    fn length(&mut self, needed: usize) -> usize {
        match self.numbers.below(6) {
            0 => needed - 1,
            1 | 2 => needed,
            3 => needed + 1,
            4 => needed + self.numbers.below(100),
            _ => self.numbers.below(needed),
        }
    }

    /// Stored bytes with one or two changed, or as they are, cut off, or with
    /// some behind.
    fn spoilt(&mut self, mut stored: Vec<u8>) -> Vec<u8> {
        let numbers = &mut self.numbers;
        match numbers.below(8) {
            0 => {}
            1 => stored.truncate(numbers.below(stored.len())),
            2 => stored.resize(stored.len() + 1 + numbers.below(80), 0),
            _ => {
                for _ in 0..1 + numbers.below(2) {
                    let place = numbers.below(stored.len());
                    stored[place] = match numbers.below(3) {
                        0 => numbers.any() as u8,
                        1 => stored[place] ^ (1 << numbers.below(8)),
                        _ => stored[numbers.below(stored.len())],
                    };
                }
            }
        }
        stored
    }

    /// Memory of another length that holds something else: one byte throughout,
    /// random ones, these, or these with a byte of the heads changed.
    fn memory(&mut self, bytes: &[u8]) -> Vec<u8> {
        let numbers = &mut self.numbers;
        let length = LENGTH + numbers.pick(&[0, 0, 1, 7, 4_096]);
        let mut memory = vec![numbers.any() as u8; length];
        match numbers.below(4) {
            0 => {}
            1 => memory.fill_with(|| numbers.any() as u8),
            other => {
                memory[..LENGTH].copy_from_slice(&bytes[..LENGTH]);
                if other == 2 {
                    memory[HEADS + numbers.below(ROWS - HEADS)] ^= 1 << numbers.below(8);
                }
            }
        }
        memory
    }
}
