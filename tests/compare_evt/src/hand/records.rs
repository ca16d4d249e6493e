//! What stands at an offset: lengths, copies, offsets and where a record ends.

use super::{record, ByHand};
use log_writer::evt::{file_with, put_round, record as record_of, trailer, Fields};
use log_writer::{put, put_u32};
use second_reader::evt::At;

pub fn all() -> Vec<ByHand> {
    let all =
        [fields(), short_lengths(), long_lengths(), ends(), wrong_bytes(), offsets(), before()];
    all.into_iter().flatten().collect()
}

/// A record of so many bytes without strings: number 7, generated at 8, written at 9.
fn sized(length: usize) -> Vec<u8> {
    let fields = Fields { number: 7, generated: 8, written: 9, ..Fields::default() };
    record_of(&fields, &vec![0xee; length - 60])
}

fn with_record(behind: usize, offset: usize, length: usize) -> Vec<u8> {
    let mut file = file_with(0, &vec![0; behind]);
    put_round(&mut file, offset, &sized(length));
    file
}

fn at(length: u64, next: u64) -> Result<At, u32> {
    Ok(At { length, number: 7, written_time: 9, next })
}

fn fields() -> Vec<ByHand> {
    let mut file = with_record(100, 50, 60);
    put(&mut file, 58, &(0x10..0x22).collect::<Vec<u8>>());
    let due = At { length: 60, number: 0x1312_1110, written_time: 0x1b1a_1918, next: 110 };
    let mut largest = file.clone();
    put(&mut largest, 58, &[0xff; 18]);
    let most = At { number: 0xffff_ffff, written_time: 0xffff_ffff, ..due };
    vec![
        record("each field another number", file, 50, Ok(due)),
        record("the largest numbers", largest, 50, Ok(most)),
    ]
}

/// Both copies say a length that is too small for a record, or the smallest.
fn short_lengths() -> Vec<ByHand> {
    let short = |length: usize| {
        let mut file = with_record(100, 60, 60);
        put_u32(&mut file, 116, 0);
        put_u32(&mut file, 60 + length - 4, length as u32);
        put_u32(&mut file, 60, length as u32);
        record("a length below 60", file, 60, Err(18))
    };
    let mut cases: Vec<_> = [4, 12, 40, 48, 56, 57, 58, 59].map(short).into();
    cases.push(record("a length of 60", with_record(100, 60, 60), 60, at(60, 120)));
    cases.push(record("a length of 61", with_record(100, 60, 61), 60, at(61, 121)));
    cases
}

/// As long as what stands behind the header, and longer.
fn long_lengths() -> Vec<ByHand> {
    let alone = |offset: usize| {
        record("108 bytes", with_record(60, offset, 60), offset as u64, at(60, offset as u64))
    };
    let longest = |offset: usize| {
        let file = with_record(255, offset, 255);
        record("a record as long as can be", file, offset as u64, at(255, offset as u64))
    };
    let longer = |offset: usize| {
        let mut file = file_with(0, &[0; 255]);
        put_round(&mut file, offset, b"\0\x01\0\0LfLe");
        // The last byte of the second length is the first of the first one.
        put_round(&mut file, 48 + (offset - 48 + 252) % 255, &[0, 1, 0]);
        record("a record of a byte more", file, offset as u64, Err(18))
    };
    let mut cases = vec![
        record("107 bytes", file_with(0, &sized(60)[..59]), 48, Err(18)),
        record("48 bytes", file_with(0, &[]), 48, Err(18)),
        record("47 bytes", file_with(0, &[])[..47].to_vec(), 48, Err(1)),
        record("the last length of 32 bits", file_with(0, &[0xff; 100]), 48, Err(18)),
    ];
    cases.extend((48..108).map(alone));
    cases.extend([48, 49, 50, 51, 52, 100, 299, 300, 301, 302].map(longest));
    cases.extend([48, 49, 50, 51, 52, 100, 299, 300, 301, 302].map(longer));
    cases
}

/// A record that goes on at 48 after each of its bytes; one that ends at the end.
fn ends() -> Vec<ByHand> {
    let end = 48 + 200;
    let cut = |before: usize| {
        let file = with_record(200, end - before, 80);
        let next = 48 + (80 - before) as u64;
        record("a record cut by the end", file, (end - before) as u64, at(80, next))
    };
    let mut cases: Vec<_> = (1..=80).map(cut).collect();
    cases.push(record(
        "a record that ends a byte before",
        with_record(200, 167, 80),
        167,
        at(80, 247),
    ));
    cases
}

/// A bit in each byte of the magic and of both lengths.
fn wrong_bytes() -> Vec<ByHand> {
    let wrong = |offset: usize, byte: usize| {
        let mut bytes = sized(80);
        bytes[byte] ^= 4;
        let mut file = file_with(0, &[0; 200]);
        put_round(&mut file, offset, &bytes);
        record("a wrong byte", file, offset as u64, Err(18))
    };
    let bytes = (0..8).chain(76..80);
    bytes.flat_map(|byte| [48, 100, 244].map(|offset| wrong(offset, byte))).collect()
}

fn offsets() -> Vec<ByHand> {
    let far = |offset: u64| record("a far offset", with_record(100, 48, 60), offset, Err(18));
    let low = |offset: usize| {
        let mut file = file_with(0, &[0; 200]);
        put_u32(&mut file, offset, 100);
        put(&mut file, offset + 4, b"LfLe");
        put_u32(&mut file, offset + 96, 100);
        record("a record from the header on", file, offset as u64, Err(18))
    };
    let mut cases = vec![record("offset 48", with_record(100, 48, 60), 48, at(60, 108))];
    cases.extend([0, 1, 47, 49, 107, 147, 148, 149, 248, u64::MAX, u64::MAX - 51].map(far));
    cases.extend([(1 << 16) + 48, (1 << 32) + 48, (1 << 63) + 48].map(far));
    cases.extend([16, 20, 24, 28, 32, 36].map(low));
    cases
}

/// What comes before 18.
fn before() -> Vec<ByHand> {
    let mut dirty = with_record(200, 120, 60);
    dirty[36] = 1;
    let mut wrong = dirty.clone();
    wrong[44] = 0;
    let mut repaired = dirty.clone();
    put(&mut repaired, 190, &trailer([0; 4]));
    let mut two = repaired.clone();
    put(&mut two, 50, &trailer([0; 4]));
    vec![
        record("a dirty log without a trailer", dirty.clone(), 120, Err(17)),
        record("no trailer, and no record", dirty, 47, Err(17)),
        record("a wrong header", wrong.clone(), 120, Err(2)),
        record("a wrong header, and no record", wrong, 0, Err(2)),
        record("a dirty log", repaired.clone(), 120, at(60, 180)),
        record("a dirty log, and no record", repaired.clone(), 121, Err(18)),
        record("the trailer is no record", repaired, 190, Err(18)),
        record("two trailers, and a record", two, 120, Err(17)),
        record("no file, and no record", vec![0; 47], 0, Err(1)),
    ]
}
