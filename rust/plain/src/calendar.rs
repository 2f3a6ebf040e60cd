//! Days and moments of the calendar.

use crate::refusal::Refusal;

/// The years of days and moments that stand alone.
const YEARS: std::ops::RangeInclusive<u64> = 1950..=2099;

/// A number of days.
#[derive(Clone, Copy, Debug, Default, PartialEq, Eq)]
pub struct Days {
    pub number: u64,
    pub detail: u64,
    /// Negative when the second day is earlier.
    pub days: i64,
}

impl Days {
    pub(crate) fn of(answer: Result<i64, Refusal>) -> Days {
        match answer {
            Ok(days) => Days { days, ..Days::default() },
            Err(Refusal { number, detail }) => Days { number, detail, days: 0 },
        }
    }
}

/// The difference of two days of 1950 to 2099, each the number YYYYMMDD.
pub fn day_difference(first: u64, second: u64) -> Days {
    Days::of(difference(first, second))
}

/// Days from the first day to the second; 1 for a day that isn't real or is outside.
pub(crate) fn difference(first: u64, second: u64) -> Result<i64, Refusal> {
    if !day_real(first) || !day_real(second) {
        return Err(Refusal::ARGUMENT);
    }
    Ok(day_count(second) - day_count(first))
}

/// Whether YYYYMMDD is a real day of 1950 to 2099.
#[inline]
pub(crate) fn day_real(day: u64) -> bool {
    let (year, month, of_month) = (day / 10_000, day / 100 % 100, day % 100);
    YEARS.contains(&year) && date_real(year as u32, month as u32, of_month as u32)
}

/// Whether YYYYMMDDHHMMSS is a real moment of 1950 to 2099.
pub(crate) fn moment_real(moment: u64) -> bool {
    let (day, hour, minute, second) = (moment / 1_000_000, moment / 10_000 % 100, moment / 100 % 100, moment % 100);
    day_real(day) && hour < 24 && minute < 60 && second < 60
}

/// Whether the Gregorian calendar has this date.
#[inline(always)]
pub(crate) fn date_real(year: u32, month: u32, day: u32) -> bool {
    if month.wrapping_sub(1) > 11 {
        return false;
    }
    if day.wrapping_sub(1) < 28 {
        return true;
    }
    day.wrapping_sub(1) < month_days(year, month)
}

/// The number of days of a month.
fn month_days(year: u32, month: u32) -> u32 {
    match month {
        4 | 6 | 9 | 11 => 30,
        2 if year % 4 == 0 && (year % 100 != 0 || year % 400 == 0) => 29,
        2 => 28,
        _ => 31,
    }
}

/// Days from a fixed day before 1950, for a real day. The year begins in March,
/// so that the leap day is its last.
fn day_count(day: u64) -> i64 {
    let (year, month, of_month) = ((day / 10_000) as i64, (day / 100 % 100) as i64, (day % 100) as i64);
    let (year, month) = if month > 2 { (year, month - 3) } else { (year - 1, month + 9) };
    year * 365 + year / 4 - year / 100 + year / 400 + (153 * month + 2) / 5 + of_month
}
