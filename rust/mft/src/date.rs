//! A day of the calendar, written `2026-11-17`.

use std::fmt;
use std::str::FromStr;
use std::time::{SystemTime, UNIX_EPOCH};

const SECONDS_OF_A_DAY: u64 = 24 * 60 * 60;
/// The calendar repeats itself after 400 years, which have this many days.
const DAYS_OF_400_YEARS: u64 = 146_097;
const FIRST_YEAR: u64 = 1970;

/// A day from year 1 to year 9999.
#[derive(Clone, Copy, PartialEq, Eq, PartialOrd, Ord, Debug)]
pub struct Date {
    year: u64,
    month: u64,
    day: u64,
}

impl Date {
    /// Today, by universal time. A clock that stands before 1970 gives its first day.
    pub fn today() -> Date {
        let since = SystemTime::now().duration_since(UNIX_EPOCH).unwrap_or_default();
        Date::of_day(since.as_secs() / SECONDS_OF_A_DAY)
    }

    /// The day with this number, from 0 for 1970-01-01.
    pub fn of_day(number: u64) -> Date {
        let mut year = FIRST_YEAR + number / DAYS_OF_400_YEARS * 400;
        let mut left = number % DAYS_OF_400_YEARS;
        while left >= days_of_year(year) {
            left -= days_of_year(year);
            year += 1;
        }
        let mut month = 1;
        while left >= days_of_month(year, month) {
            left -= days_of_month(year, month);
            month += 1;
        }
        Date { year, month, day: left + 1 }
    }
}

fn is_leap(year: u64) -> bool {
    year.is_multiple_of(4) && !year.is_multiple_of(100) || year.is_multiple_of(400)
}

fn days_of_year(year: u64) -> u64 {
    365 + u64::from(is_leap(year))
}

/// Days of a month, from 1 to 12.
fn days_of_month(year: u64, month: u64) -> u64 {
    match month {
        2 => 28 + u64::from(is_leap(year)),
        4 | 6 | 9 | 11 => 30,
        _ => 31,
    }
}

impl FromStr for Date {
    type Err = &'static str;

    /// Reads `YYYY-MM-DD`, a day that the calendar has.
    ///
    /// # Errors
    ///
    /// What is wrong with it, in words.
    fn from_str(text: &str) -> Result<Date, &'static str> {
        let parts: Vec<&str> = text.split('-').collect();
        let [year, month, day] = parts[..] else { return Err("a date is written YYYY-MM-DD") };
        let number = |text: &str, size: usize| {
            let digits = text.len() == size && text.bytes().all(|byte| byte.is_ascii_digit());
            digits.then(|| text.parse().ok()).flatten().ok_or("a date is written YYYY-MM-DD")
        };
        let (year, month, day) = (number(year, 4)?, number(month, 2)?, number(day, 2)?);
        if year == 0 || !(1..=12).contains(&month) {
            return Err("months go from 01 to 12, and years from 0001");
        }
        if !(1..=days_of_month(year, month)).contains(&day) {
            return Err("that month has no such day");
        }
        Ok(Date { year, month, day })
    }
}

impl fmt::Display for Date {
    fn fmt(&self, formatter: &mut fmt::Formatter) -> fmt::Result {
        write!(formatter, "{:04}-{:02}-{:02}", self.year, self.month, self.day)
    }
}
