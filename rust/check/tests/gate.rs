//! The whole check with a fixed seed. It has no test harness, so that what was
//! covered is always printed.

use std::process::ExitCode;

/// The seed of the random lists, and how many are run.
const SEED: u64 = 1;
const LISTS: u64 = 4_000;

fn main() -> ExitCode {
    if check::check(SEED, LISTS) {
        ExitCode::SUCCESS
    } else {
        ExitCode::FAILURE
    }
}
