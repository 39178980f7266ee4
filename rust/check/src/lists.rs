//! Random lists of calls, each on a book that starts empty, with both books
//! compared and probed after every call, reports written of them, the amount of an
//! order found by its total, the book stored and now and then moved to other memory
//! by that, and the whole list replayed at its end.

use crate::coverage::Coverage;
use crate::generator::Generator;
use crate::numbers::Numbers;
use crate::run::Run;
use crate::storing::Storage;
use std::ops::Range;

/// Runs these lists of a seed.
pub fn check(seed: u64, lists: Range<u64>, coverage: &mut Coverage) {
    for list in lists {
        check_list(seed, list, coverage);
    }
}

/// Runs one list of a seed.
fn check_list(seed: u64, list: u64, coverage: &mut Coverage) {
    let mut generator = Generator::of(seed, list);
    let title = format!("seed {seed}, list {list}");
    let mut run = Run::begin(title, generator.spare, coverage);
    let mut storage = Storage::of(seed, list);
    for _ in 0..generator.calls {
        let call = generator.call(run.book());
        run.call(call.clone());
        let _ = run.sheet(&generator.lending(run.book()));
        for (report, length) in generator.reports(run.book()) {
            let _ = run.report(&report, length);
        }
        if let Some((asked, amount)) = generator.amount(run.book()) {
            run.expect_amount(asked, Ok(Some(amount)));
        }
        run.probe(&generator.probes(&call, run.book()));
        storage.follow(&mut run);
    }
    run.replay(&mut Numbers::of(seed.rotate_left(32), list));
    run.coverage.lists += 1;
}
