//! The checking program as a command, for as many random lists as are wanted.

use check::coverage::Coverage;
use check::lists;
use std::env;
use std::process::ExitCode;

const USAGE: &str = "check [--seed N] [--lists N] [--list N]
  --seed   what the random lists are drawn from (1)
  --lists  how many of them are run (1000)
  --list   run this list of the seed, and nothing else";

/// What the command line asks for.
struct Wanted {
    seed: u64,
    lists: u64,
    list: Option<u64>,
}

/// Reads the command line, if it can be read.
fn wanted() -> Option<Wanted> {
    let mut wanted = Wanted {
        seed: 1,
        lists: 1_000,
        list: None,
    };
    let mut words = env::args().skip(1);
    while let Some(word) = words.next() {
        let number = words.next()?.parse().ok()?;
        match word.as_str() {
            "--seed" => wanted.seed = number,
            "--lists" => wanted.lists = number,
            "--list" => wanted.list = Some(number),
            _ => return None,
        }
    }
    Some(wanted)
}

fn main() -> ExitCode {
    let Some(Wanted { seed, lists, list }) = wanted() else {
        eprintln!("{USAGE}");
        return ExitCode::from(2);
    };
    if let Some(list) = list {
        lists::check(seed, list..list + 1, &mut Coverage::default());
        println!("seed {seed}, list {list}: no difference");
        return ExitCode::SUCCESS;
    }
    if check::check(seed, lists) {
        ExitCode::SUCCESS
    } else {
        ExitCode::FAILURE
    }
}
