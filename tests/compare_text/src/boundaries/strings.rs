//! Strings: each UTF-16 unit alone, pairs, lone surrogates, escapes, lengths, and
//! closing zeros.

use super::Value;
use log_writer::{u16s, utf16};

/// High surrogates and low ones at the ends of their ranges, and their
/// neighbours.
const AROUND_SURROGATES: [u16; 10] =
    [0xd7ff, 0xd800, 0xd801, 0xdbfe, 0xdbff, 0xdc00, 0xdc01, 0xdffe, 0xdfff, 0xe000];
/// Units that are written as they are, as an escape, or as U+FFFD.
const OTHERS: [u16; 9] = [0x41, 0x26, 0x22, 0x0a, 0x00, 0x7f, 0x7ff, 0x800, 0xfffe];

/// What stands before closing zeros: units with a zero in either half, units that
/// are escaped or no XML character, and surrogates.
const BEFORE_ZEROS: [u16; 14] = [
    0x41, 0x4100, 0x01, 0x100, 0xff, 0xff00, 0x26, 0x0a, 0xd800, 0xdbff, 0xdc00, 0xdfff, 0xfffd,
    0xfffe,
];
/// What stands before that.
const FRONTS: [&[u16]; 6] = [&[], &[0], &[0x41], &[0x41, 0], &[0xd800], &[0xd800, 0]];

fn string(units: &[u16]) -> Value {
    Value::new(0x01, u16s(units))
}

fn text(text: &str) -> Value {
    Value::new(0x01, utf16(text))
}

pub fn single_units() -> Vec<Value> {
    (0..=u16::MAX).map(|unit| string(&[unit])).collect()
}

/// The first and last characters of the planes 1 to 16, each a pair.
pub fn plane_ends() -> Vec<Value> {
    let mut values = Vec::new();
    for plane in 1..=16 {
        for code in [0, 1, 0x3ff, 0x400, 0xfbff, 0xfc00, 0xfffd, 0xfffe, 0xffff] {
            let bits = (plane << 16 | code) - 0x1_0000;
            values.push(string(&[0xd800 + (bits >> 10) as u16, 0xdc00 + (bits & 0x3ff) as u16]));
        }
    }
    values
}

pub fn escapes_and_surrogates() -> Vec<Value> {
    let mut values = vec![
        string(&[]),
        text("a&b<c>d\"e'f"),
        text("&amp;&#10;]]>"),
        text("\t\n\r\u{b}\u{c}"),
        text("Brücke €😀\u{10ffff}"),
        string(&[0x26; 32_767]),
        string(&[0xd83d; 999]),
    ];
    let all = [&AROUND_SURROGATES[..], &OTHERS].concat();
    for first in &all {
        for second in &all {
            values.push(string(&[*first, *second]));
            values.push(string(&[0xd800, *first, *second]));
            values.push(string(&[*first, *second, 0xdc00]));
        }
    }
    for size in [1, 3, 5, 255, 65_535] {
        values.push(Value::new(0x01, vec![0x41; size]));
    }
    values
}

/// Strings with zeros at their end, with zeros that another unit follows, and of
/// nothing but zeros; odd sizes, where a zero byte is half a unit.
pub fn closing_zeros() -> Vec<Value> {
    let mut values = vec![text("Brücke\0"), text("\0Halle\0West\0\0\0")];
    for count in [1, 2, 3, 60, 29_999, 32_767] {
        values.push(string(&vec![0; count]));
        values.push(string(&[&[0x41], &vec![0; count - 1][..]].concat()));
        values.push(string(&[&vec![0; count - 1][..], &[0x42]].concat()));
    }
    for front in FRONTS {
        for last in BEFORE_ZEROS {
            for zeros in [&[][..], &[0], &[0; 2], &[0; 7]] {
                values.push(string(&[front, &[last], zeros].concat()));
            }
        }
    }
    for bytes in [&[0][..], &[0; 3], &[0x41, 0, 0], &[0, 0x41, 0], &[0, 0, 0x41], &[0; 65_535]] {
        values.push(Value::new(0x01, bytes));
    }
    values
}

/// Sizes up to some times eight bytes, with the last byte that is not zero at each
/// place: a reader may pass the tail several bytes at a time. What stands before
/// that byte is zeros, or is not.
pub fn last_bytes() -> Vec<Value> {
    let mut values = Vec::new();
    for size in (2..=34).step_by(2) {
        for at in 0..size {
            for before in [0, 0x42] {
                let front = [vec![before; at], vec![0x41]].concat();
                values.push(Value::new(0x01, [front, vec![0; size - at - 1]].concat()));
            }
        }
    }
    values
}
