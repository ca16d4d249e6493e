//! FileTime and SysTime, in an element and in an attribute.

use super::flat;
use super::values::{both, named, wrong};
use crate::question::Question;
use log_writer::u16s;

/// A day in the units of a FileTime, 100 ns.
const DAY: u64 = 864_000_000_000;

const FILE_TIMES: [(u64, &str); 11] = [
    (0, "1601-01-01T00:00:00.0000000Z"),
    (1, "1601-01-01T00:00:00.0000001Z"),
    (DAY - 1, "1601-01-01T23:59:59.9999999Z"),
    // 1600 + 4: the first leap year, 3 * 365 days on; its 60th day.
    ((3 * 365 + 59) * DAY, "1604-02-29T00:00:00.0000000Z"),
    ((3 * 365 + 60) * DAY, "1604-03-01T00:00:00.0000000Z"),
    // 1700 is no leap year: 99 years with 24 leap days lie before it.
    ((99 * 365 + 24 + 58) * DAY, "1700-02-28T00:00:00.0000000Z"),
    ((99 * 365 + 24 + 59) * DAY, "1700-03-01T00:00:00.0000000Z"),
    // 2000 is one: 399 years with 96 leap days lie before it.
    ((399 * 365 + 96 + 59) * DAY, "2000-02-29T00:00:00.0000000Z"),
    ((399 * 365 + 96 + 365) * DAY, "2000-12-31T00:00:00.0000000Z"),
    ((400 * 365 + 97) * DAY, "2001-01-01T00:00:00.0000000Z"),
    (2_650_467_743_999_999_999, "9999-12-31T23:59:59.9999999Z"),
];

const WRONG_FILE_TIMES: [u64; 2] = [2_650_467_744_000_000_000, u64::MAX];

/// Year, month, weekday, day, hour, minute, second, millisecond.
type SystemTime = [u16; 8];

const SYSTEM_TIMES: [(SystemTime, &str); 4] = [
    ([1601, 1, 0, 1, 0, 0, 0, 0], "1601-01-01T00:00:00.000Z"),
    ([9999, 12, 6, 31, 23, 59, 59, 999], "9999-12-31T23:59:59.999Z"),
    ([2024, 2, 4, 29, 1, 2, 3, 4], "2024-02-29T01:02:03.004Z"),
    ([2000, 2, 2, 29, 0, 0, 0, 0], "2000-02-29T00:00:00.000Z"),
];

const NO_WEEKDAY: (SystemTime, &str) =
    ([2016, 6, 0xffff, 30, 0, 0, 0, 50], "2016-06-30T00:00:00.050Z");

const WRONG_SYSTEM_TIMES: [SystemTime; 13] = [
    [1600, 12, 0, 31, 0, 0, 0, 0],
    [10_000, 1, 0, 1, 0, 0, 0, 0],
    [1900, 2, 0, 29, 0, 0, 0, 0],
    [2023, 2, 0, 29, 0, 0, 0, 0],
    [2024, 4, 0, 31, 0, 0, 0, 0],
    [2024, 0, 0, 1, 0, 0, 0, 0],
    [2024, 13, 0, 1, 0, 0, 0, 0],
    [2024, 1, 0, 0, 0, 0, 0, 0],
    [2024, 1, 0, 32, 0, 0, 0, 0],
    [2024, 1, 0, 1, 24, 0, 0, 0],
    [2024, 1, 0, 1, 0, 60, 0, 0],
    [2024, 1, 0, 1, 0, 0, 60, 0],
    [2024, 1, 0, 1, 0, 0, 0, 1_000],
];

pub fn all() -> Vec<Question> {
    let file_time = |(ticks, text): (u64, &str)| both(0x11, &ticks.to_le_bytes(), text);
    let wrong_file_time = |ticks: u64| wrong(0x11, &ticks.to_le_bytes());
    let system_time = |(fields, text): (SystemTime, &str)| both(0x12, &u16s(&fields), text);
    let wrong_system_time = |fields: SystemTime| wrong(0x12, &u16s(&fields));
    flat([
        FILE_TIMES.into_iter().flat_map(file_time).collect(),
        WRONG_FILE_TIMES.into_iter().flat_map(wrong_file_time).collect(),
        SYSTEM_TIMES.into_iter().flat_map(system_time).collect(),
        named(28, system_time(NO_WEEKDAY)),
        WRONG_SYSTEM_TIMES.into_iter().flat_map(wrong_system_time).collect(),
    ])
}
