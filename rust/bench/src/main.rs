//! Measures the proved archive against a plain Rust twin (docs/BENCHMARKS.md).

mod books;
mod on_books;
mod on_files;
mod on_reports;
mod on_stores;
mod table;
mod timing;

use bench::files::{PROFILE, RATED};
use timing::Clock;

fn main() {
    let clock = Clock::new();
    println!("{clock}\n");
    println!("{}", on_files::intake(&clock));
    println!("{}", on_files::parts_of_intake(&clock));
    println!("{}", on_files::utf8(&clock));
    for profile in [&PROFILE, &RATED] {
        for (shipments, orders) in [(1, 2_048), (32, 64)] {
            let [whole, bare] = on_books::full_book(&clock, shipments, orders, profile);
            println!("{whole}\n{bare}");
        }
    }
    println!("{}", on_books::rows(&clock));
    println!("{}", on_books::sheets(&clock));
    println!("{}", on_reports::ope(&clock));
    println!("{}", on_reports::rkf(&clock));
    print!("{}", on_stores::stores(&clock));
}
