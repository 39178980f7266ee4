//! Dates: days that are real and those that are not, in the name, the header
//! and the profile; the windows of 60, 10 and 30 days around days at the ends
//! of months, leap years and the century; times of day.

use crate::coverage::Coverage;
use crate::draft::Draft;
use crate::run::Run;
use reference::calendar::is_real_date;

/// Days to stand on: ordinary, around leap days, and at both ends of the years
/// 2000 to 2099.
const TODAYS: [u64; 12] = [
    20_201_007, 20_200_229, 20_200_301, 20_210_301, 20_210_228, 20_201_231, 20_210_101, 20_000_101,
    20_000_301, 20_000_331, 20_991_231, 20_991_201,
];

/// Tries every such date.
pub fn check(coverage: &mut Coverage) {
    let mut run = Run::begin("dates".into(), 0, coverage);
    windows(&mut run);
    days(&mut run);
    times(&mut run);
}

/// Each created and benefit date from 64 days before to 64 days after each day
/// to stand on.
fn windows(run: &mut Run) {
    let days: Vec<u64> = (20_000_101..=20_991_231)
        .filter(|date| is_real_date(*date))
        .collect();
    for today in TODAYS {
        let place = days.partition_point(|day| *day < today);
        for day in &days[place.saturating_sub(64)..days.len().min(place + 65)] {
            let mut draft = Draft::zs1().with_benefit_date(today);
            draft.profile.today = today;
            let noon = |day| format!("{day}120000");
            run.attempt(&[
                draft.clone().with_header(7, &noon(*day)).intake(),
                draft
                    .with_header(7, &noon(today))
                    .with_benefit_date(*day)
                    .intake(),
            ]);
        }
    }
}

/// Each day of months 0 to 13 and days 0 to 32 of some years: as today, as
/// benefit date and as created.
fn days(run: &mut Run) {
    for year in [1999, 2000, 2004, 2020, 2021, 2096, 2099, 2100] {
        for (month, day) in (0..=13).flat_map(|month| (0..=32).map(move |day| (month, day))) {
            let date = year * 10_000 + month * 100 + day;
            let good = is_real_date(date);
            let mut draft = Draft::zs1();
            draft.profile.today = date;
            let today = if good { date } else { 20_201_007 };
            let mut dated = Draft::zs1().with_benefit_date(date);
            dated.profile.today = today;
            run.attempt(&[
                draft.intake(),
                dated
                    .clone()
                    .with_header(7, &format!("{date}120000"))
                    .intake(),
                dated
                    .with_benefit_date(today)
                    .with_header(7, &format!("{date}120000"))
                    .intake(),
            ]);
        }
    }
    for today in [0, 7, 202_010_070, 120_201_007, u64::MAX] {
        let mut draft = Draft::zs1();
        draft.profile.today = today;
        run.attempt(&[draft.intake()]);
    }
}

/// Each hour, minute and second from 00 to 99.
fn times(run: &mut Run) {
    for number in 0..100 {
        for time in [
            format!("{number:02}0000"),
            format!("23{number:02}59"),
            format!("0000{number:02}"),
        ] {
            let created = format!("20201007{time}");
            run.attempt(&[Draft::zs1().with_header(7, &created).intake()]);
        }
    }
}
