//! What was covered of extra fields judged early: what was said of them, and the
//! records that were judged without them.

use crate::extra::Judged;

/// What can be said of an extra field: nothing, that it is empty, that it fails, and
/// that it fails and starts or ends with a space.
const SAID: [usize; 4] = [0, 1, 2, 6];

/// Counts of what was judged.
#[derive(Default)]
pub struct Counts {
    said: [u64; 8],
    bits: [u64; 8],
    faults: [u64; 11],
}

impl Counts {
    /// Counts what was said of an extra field.
    pub fn note_said(&mut self, bits: u64) {
        self.said[bits as usize % 8] += 1;
    }

    /// Counts a record that was judged without its extra field: by the bits passed
    /// that say something, and by its fault.
    pub fn note_around(&mut self, bits: u64, judged: &Judged) {
        if let Ok(fault) = judged {
            self.bits[bits as usize % 8] += 1;
            self.faults[usize::from(fault.unwrap_or(0))] += 1;
        }
    }

    /// What can be judged and never was.
    pub fn missing(&self) -> Vec<String> {
        let said = SAID.iter().filter(|bits| self.said[**bits] == 0);
        let mut missing: Vec<String> = said.map(|bits| format!("extra said {bits}")).collect();
        for bits in (0..8).filter(|bits| self.bits[*bits] == 0) {
            missing.push(format!("judged around bits {bits}"));
        }
        for fault in (0..=10).filter(|fault| self.faults[*fault] == 0) {
            missing.push(format!("judged around fault {fault}"));
        }
        missing
    }

    /// The counts by what was said, by the bits passed and by the fault.
    pub fn cells(&self) -> [Vec<String>; 3] {
        let cell = |(what, count): (usize, &u64)| format!("{what}: {count}");
        let said = SAID.iter().map(|bits| (*bits, &self.said[*bits]));
        [
            said.map(cell).collect(),
            self.bits.iter().enumerate().map(cell).collect(),
            self.faults.iter().enumerate().map(cell).collect(),
        ]
    }
}
