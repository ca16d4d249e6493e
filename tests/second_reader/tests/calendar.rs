//! The calendar against a plain walk through all days from 1601 to 9999.

use second_reader::calendar::{date, day_number, month_length};

fn leap(year: u64) -> bool {
    year % 4 == 0 && (year % 100 != 0 || year % 400 == 0)
}

fn days_in(year: u64, month: u64) -> u64 {
    match month {
        2 if leap(year) => 29,
        2 => 28,
        4 | 6 | 9 | 11 => 30,
        _ => 31,
    }
}

#[test]
fn every_day() {
    let mut number = day_number(1601, 1, 1);
    for year in 1601..=9999 {
        for month in 1..=12 {
            assert_eq!(month_length(year, month), days_in(year, month));
            for day in 1..=days_in(year, month) {
                assert_eq!(day_number(year, month, day), number);
                let found = date(number);
                assert_eq!((found.year, found.month, found.day), (year, month, day));
                number += 1;
            }
        }
    }
    // 2,650,467,744,000,000,000 ticks of 100 ns are the first not writable.
    let days = number - day_number(1601, 1, 1);
    assert_eq!(days * 86_400 * 10_000_000, 2_650_467_744_000_000_000);
}
