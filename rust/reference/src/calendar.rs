//! "Dates are Gregorian, years 2000 to 2099; differences are calendar days."
//!
//! A date is the number its eight digits yyyymmdd read as.

/// Gregorian leap years.
fn is_leap_year(year: u64) -> bool {
    (year.is_multiple_of(4) && !year.is_multiple_of(100)) || year.is_multiple_of(400)
}

/// The number of days of a month 1 to 12; 0 for any other month.
fn days_in_month(year: u64, month: u64) -> u64 {
    match month {
        1 | 3 | 5 | 7 | 8 | 10 | 12 => 31,
        4 | 6 | 9 | 11 => 30,
        2 if is_leap_year(year) => 29,
        2 => 28,
        _ => 0,
    }
}

/// Parts a date number into year, month and day, a time number into hour,
/// minute and second.
fn parts(number: u64) -> (u64, u64, u64) {
    (number / 10_000, number / 100 % 100, number % 100)
}

/// A real date of the years 2000 to 2099?
pub fn is_real_date(date: u64) -> bool {
    let (year, month, day) = parts(date);
    (2000..=2099).contains(&year) && day >= 1 && day <= days_in_month(year, month)
}

/// "hour 00-23, minute and second 00-59"? A time of day is the number its six
/// digits hhmmss read as.
pub fn is_time_of_day(time: u64) -> bool {
    let (hour, minute, second) = parts(time);
    hour <= 23 && minute <= 59 && second <= 59
}

/// The number of days from 1 January 2000 to a real date.
pub fn day_number(date: u64) -> u64 {
    let (year, month, day) = parts(date);
    let mut days = 0;
    for earlier_year in 2000..year {
        days += if is_leap_year(earlier_year) { 366 } else { 365 };
    }
    for earlier_month in 1..month {
        days += days_in_month(year, earlier_month);
    }
    days + day - 1
}

/// Is a real date from `before` days before to `after` days after another one,
/// both ends counted in?
pub fn is_within(date: u64, before: u64, after: u64, today: u64) -> bool {
    let date = day_number(date);
    let today = day_number(today);
    date + before >= today && date <= today + after
}
