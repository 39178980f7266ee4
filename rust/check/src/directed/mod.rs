//! Cases taken from the papers one by one: every question and every two, every
//! boundary, fees with a rate, every spelling of money, every refusal, long
//! titles, full books, sheets, report files, money as text, amounts for a total,
//! extra fields judged early, stored books, journals, ZS1 and the field engineer's
//! card.

mod amounts;
mod bytes;
mod card;
mod dates;
mod extra;
mod fees;
mod fields;
mod full;
mod money;
mod ope;
mod questions;
mod refusals;
mod replay;
mod rkf;
mod sheet;
mod spellings;
mod store;
mod titles;

use crate::coverage::Coverage;

/// Runs every directed case.
pub fn check(coverage: &mut Coverage) {
    questions::check(coverage);
    bytes::check(coverage);
    dates::check(coverage);
    fields::check(coverage);
    fees::check(coverage);
    spellings::check(coverage);
    refusals::check(coverage);
    titles::check(coverage);
    full::check(coverage);
    sheet::check(coverage);
    rkf::check(coverage);
    ope::check(coverage);
    money::check(coverage);
    amounts::check(coverage);
    extra::check(coverage);
    store::check(coverage);
    replay::check(coverage);
    card::check(coverage);
}
