//! FileTime and SysTime: the ends of their ranges, each month's first and last
//! day in common and leap years, and each field just in and just out.

use super::Value;
use log_writer::u16s;

const TICKS_PER_DAY: u64 = 864_000_000_000;
const LIMIT: u64 = 2_650_467_743_999_999_999;
const EPOCH_1970: u64 = 116_444_736_000_000_000;
/// Common and leap years, the century years among them, and the range's ends.
const YEARS: [u16; 20] = [
    1601, 1604, 1699, 1700, 1800, 1899, 1900, 1904, 1970, 1999, 2000, 2001, 2023, 2024, 2100, 2399,
    2400, 9996, 9998, 9999,
];

fn is_leap(year: u16) -> bool {
    year % 4 == 0 && (year % 100 != 0 || year % 400 == 0)
}

fn month_length(year: u16, month: u16) -> u16 {
    match month {
        2 if is_leap(year) => 29,
        2 => 28,
        4 | 6 | 9 | 11 => 30,
        _ => 31,
    }
}

/// The days from the first of January 1601 to the first of the month.
fn days_before(year: u16, month: u16) -> u64 {
    let years: u64 = (1601..year).map(|year| if is_leap(year) { 366 } else { 365 }).sum();
    let months: u16 = (1..month).map(|month| month_length(year, month)).sum();
    years + u64::from(months)
}

fn months() -> impl Iterator<Item = (u16, u16)> {
    YEARS.into_iter().flat_map(|year| (1..=12).map(move |month| (year, month)))
}

/// The first and the last moment of each month, and the moments around them.
fn month_ends() -> Vec<u64> {
    let mut ticks = Vec::new();
    for (year, month) in months() {
        let first = days_before(year, month) * TICKS_PER_DAY;
        let last_day = first + u64::from(month_length(year, month) - 1) * TICKS_PER_DAY;
        ticks.extend([first, first + 1, last_day, last_day + TICKS_PER_DAY - 1]);
    }
    ticks
}

pub fn file_times() -> Vec<Value> {
    let mut ticks = vec![0, EPOCH_1970, EPOCH_1970 - 1, LIMIT, LIMIT + 1, LIMIT + 2];
    ticks.extend([1 << 63, (1 << 63) - 1, u64::MAX, u64::MAX - 1, LIMIT + (1 << 63)]);
    // One of each unit less and more: 100 ns, second, minute, hour, day.
    for unit in [1, 10_000_000, 600_000_000, 36_000_000_000, TICKS_PER_DAY] {
        ticks.extend([unit - 1, unit, unit + 1, LIMIT - unit, LIMIT + 1 - unit]);
    }
    ticks.extend((0..7).map(|place| 10u64.pow(place)));
    ticks.extend((0..7).map(|place| 9 * 10u64.pow(place)));
    ticks.extend(month_ends());
    ticks.into_iter().map(|ticks| Value::new(0x11, ticks.to_le_bytes())).collect()
}

/// Year, month, weekday, day, hour, minute, second, millisecond.
fn system_time(fields: [u16; 8]) -> Value {
    Value::new(0x12, u16s(&fields))
}

/// For each field, numbers just in and just out of its range.
const FIELDS: [(usize, &[u16]); 8] = [
    (0, &[0, 1, 1600, 1601, 9999, 10_000, 32_768, 65_535]),
    (1, &[0, 1, 2, 12, 13, 256, 65_535]),
    (2, &[0, 6, 7, 65_535]),
    (3, &[0, 1, 30, 31, 32, 257, 65_535]),
    (4, &[0, 1, 9, 10, 23, 24, 256, 65_535]),
    (5, &[0, 1, 9, 10, 59, 60, 256, 65_535]),
    (6, &[0, 1, 9, 10, 59, 60, 256, 65_535]),
    (7, &[0, 1, 9, 10, 99, 100, 999, 1_000, 65_535]),
];

pub fn system_times() -> Vec<Value> {
    let mut values = vec![
        system_time([1601, 1, 0, 1, 0, 0, 0, 0]),
        system_time([9999, 12, 6, 31, 23, 59, 59, 999]),
        system_time([0; 8]),
        system_time([u16::MAX; 8]),
    ];
    for (index, numbers) in FIELDS {
        for number in numbers {
            let mut fields = [2024, 1, 3, 15, 12, 34, 56, 789];
            fields[index] = *number;
            values.push(system_time(fields));
        }
    }
    for (year, month) in months() {
        let last = month_length(year, month);
        for day in [0, 1, 28, last, last + 1] {
            values.push(system_time([year, month, 0, day, 0, 0, 0, 0]));
        }
    }
    values
}
