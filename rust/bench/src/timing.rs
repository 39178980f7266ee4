//! The shortest time of a call, measured so that all entries of a race see the
//! same machine: one process, one memory, and batches that take turns.

use bench::calls::{Answer, Call};
use std::fmt;
use std::hint::black_box;
use std::time::Instant;

/// Makes a call on a book: a rival's, or what it is compared with.
pub type Make = fn(&mut [u8], &Call) -> Answer;

/// How often the entries of a race take their turn, and for how many calls.
#[derive(Clone, Copy)]
pub struct Effort {
    /// The turns of each entry.
    pub turns: usize,
    /// The calls in a turn.
    pub calls: usize,
}

/// A clock that knows what reading it costs.
pub struct Clock {
    /// The shortest time between two readings, in nanoseconds.
    cost: f64,
}

impl Clock {
    /// Measures what reading the clock costs.
    pub fn new() -> Clock {
        let readings = (0..100_000).map(|_| nanoseconds(|| ()));
        Clock {
            cost: readings.fold(f64::INFINITY, f64::min),
        }
    }

    /// The shortest time of each entry's call, in nanoseconds. Before each call
    /// the book is copied into the memory, and that is not timed.
    pub fn race<const N: usize>(
        &self,
        effort: Effort,
        book: &[u8],
        entries: [(Make, Call); N],
    ) -> [f64; N] {
        let mut memory = book.to_vec();
        self.take_turns(effort, |entry| {
            let (make, call) = &entries[entry];
            memory.copy_from_slice(book);
            nanoseconds(|| make(black_box(&mut memory), black_box(call)))
        })
    }

    /// The shortest time of each of N entries, in nanoseconds. `time_call` makes
    /// an entry's call once and says how long it took by the clock.
    pub fn take_turns<const N: usize>(
        &self,
        effort: Effort,
        mut time_call: impl FnMut(usize) -> f64,
    ) -> [f64; N] {
        let mut shortest = [f64::INFINITY; N];
        for turn in 0..=effort.turns {
            for (entry, shortest) in shortest.iter_mut().enumerate() {
                for _ in 0..effort.calls {
                    let time = time_call(entry);
                    let is_warm = turn > 0;
                    if is_warm && time < *shortest {
                        *shortest = time;
                    }
                }
            }
        }
        shortest.map(|time| (time - self.cost).max(0.0))
    }
}

impl fmt::Display for Clock {
    fn fmt(&self, f: &mut fmt::Formatter<'_>) -> fmt::Result {
        write!(
            f,
            "Each time is the shortest of many calls. Archive and rival take turns on one memory,\n\
             into which the book is copied before each call; the copying is not timed. Reading the\n\
             clock costs {} ns, and these are taken off.",
            self.cost
        )
    }
}

/// How many nanoseconds some work takes, with the cost of reading the clock.
pub fn nanoseconds<T>(work: impl FnOnce() -> T) -> f64 {
    let start = Instant::now();
    black_box(work());
    start.elapsed().as_nanos() as f64
}
