//! Dates as the numbers that their eight digits write, years 2000 to 2099.

/// The days before each month of a common year.
const DAYS_BEFORE: [u32; 12] = [0, 31, 59, 90, 120, 151, 181, 212, 243, 273, 304, 334];

/// Year, month and day of a date.
fn parts(date: u32) -> (u32, u32, u32) {
    (date / 10_000, date / 100 % 100, date % 100)
}

/// The days of a month; every fourth year of the century is a leap year.
fn days_in_month(year: u32, month: u32) -> u32 {
    match month {
        2 if year.is_multiple_of(4) => 29,
        2 => 28,
        4 | 6 | 9 | 11 => 30,
        _ => 31,
    }
}

/// Is it a real date of 2000 to 2099?
pub fn is_real(date: u32) -> bool {
    let (year, month, day) = parts(date);
    (2000..=2099).contains(&year)
        && (1..=12).contains(&month)
        && (1..=days_in_month(year, month)).contains(&day)
}

/// Is it a real date and a time of day, as the 14 digits yyyymmddhhmmss write
/// them?
pub fn is_moment(digits: u64) -> bool {
    u32::try_from(digits / 1_000_000).is_ok_and(is_real)
        && digits / 10_000 % 100 <= 23
        && digits / 100 % 100 <= 59
        && digits % 100 <= 59
}

/// The days from 1 January 2000 to a real date.
fn day_number(date: u32) -> u32 {
    let (year, month, day) = parts(date);
    let years = year - 2000;
    let leap_day = u32::from(month > 2 && year.is_multiple_of(4));
    years * 365 + years.div_ceil(4) + DAYS_BEFORE[month as usize - 1] + leap_day + day - 1
}

/// Is a real date from `before` days before today to `after` days after?
pub fn is_within(date: u32, before: u32, after: u32, today: u32) -> bool {
    let (date, today) = (day_number(date), day_number(today));
    date + before >= today && date <= today + after
}
