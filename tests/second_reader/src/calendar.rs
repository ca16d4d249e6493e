//! The Gregorian calendar by arithmetic on years that begin in March, so that
//! the leap day is a year's last day and months follow one linear formula.

const DAYS_IN_400_YEARS: u64 = 146_097;

pub struct Date {
    pub year: u64,
    pub month: u64,
    pub day: u64,
}

/// The number of days from 1 March of year 0 to the given date; the year is
/// at least 1.
pub fn day_number(year: u64, month: u64, day: u64) -> u64 {
    let (march_year, march_month) =
        if month >= 3 { (year, month - 3) } else { (year - 1, month + 9) };
    let leap_days = march_year / 4 - march_year / 100 + march_year / 400;
    // 153 days fall on every five months from March on.
    let day_of_year = (153 * march_month + 2) / 5 + day - 1;
    march_year * 365 + leap_days + day_of_year
}

/// The date of a day number: the inverse of `day_number`.
pub fn date(number: u64) -> Date {
    let cycle = number / DAYS_IN_400_YEARS;
    let day_of_cycle = number % DAYS_IN_400_YEARS;
    // Days without the leap days passed: one in 1,460, save every 36,524th, and
    // again the cycle's very last day.
    let year_of_cycle = (day_of_cycle - day_of_cycle / 1_460 + day_of_cycle / 36_524
        - day_of_cycle / 146_096)
        / 365;
    let before = year_of_cycle * 365 + year_of_cycle / 4 - year_of_cycle / 100;
    let day_of_year = day_of_cycle - before;
    let march_month = (5 * day_of_year + 2) / 153;
    let day = day_of_year - (153 * march_month + 2) / 5 + 1;
    let march_year = cycle * 400 + year_of_cycle;
    if march_month < 10 {
        Date { year: march_year, month: march_month + 3, day }
    } else {
        Date { year: march_year + 1, month: march_month - 9, day }
    }
}

/// The days in a month, 1 to 12.
pub fn month_length(year: u64, month: u64) -> u64 {
    let (next_year, next_month) = if month == 12 { (year + 1, 1) } else { (year, month + 1) };
    day_number(next_year, next_month, 1) - day_number(year, month, 1)
}
