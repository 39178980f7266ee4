//! The numbers from which random lists are made: the same seed and list give
//! the same numbers on every machine.

/// A sequence of numbers (SplitMix64).
pub struct Numbers(u64);

impl Numbers {
    /// The sequence of one list of a seed.
    pub fn of(seed: u64, list: u64) -> Numbers {
        let mut numbers = Numbers(seed ^ list.wrapping_mul(0xD6E8_FEB8_6659_FD93));
        Numbers(numbers.any())
    }

    /// The next number.
    pub fn any(&mut self) -> u64 {
        self.0 = self.0.wrapping_add(0x9E37_79B9_7F4A_7C15);
        let mixed = (self.0 ^ (self.0 >> 30)).wrapping_mul(0xBF58_476D_1CE4_E5B9);
        let mixed = (mixed ^ (mixed >> 27)).wrapping_mul(0x94D0_49BB_1331_11EB);
        mixed ^ (mixed >> 31)
    }

    /// A number from 0 to one below the limit.
    pub fn below(&mut self, limit: usize) -> usize {
        (self.any() % limit as u64) as usize
    }

    /// True once in so many times.
    pub fn one_in(&mut self, times: usize) -> bool {
        self.below(times) == 0
    }

    /// One of these.
    pub fn pick<T: Clone>(&mut self, choices: &[T]) -> T {
        choices[self.below(choices.len())].clone()
    }
}
