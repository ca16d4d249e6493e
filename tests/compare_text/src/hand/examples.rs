//! Document 01's examples, marked and unmarked, with its own bytes and numbers.

use super::flat;
use crate::question::Question;
use log_writer::*;

/// The record of the first example, byte by byte as document 01 gives it.
pub fn first() -> Vec<u8> {
    let mut chunk = chunk_with(512, &[0x2a, 0x2a, 0, 0, 110, 0, 0, 0, 1]);
    put(&mut chunk, 536, &[0x0f, 1, 1, 0]);
    put(&mut chunk, 540, &[0x0c, 1, 0, 0, 0, 0]);
    put_u32(&mut chunk, 546, 550);
    put_u32(&mut chunk, 570, 34);
    put(&mut chunk, 574, &[0x0f, 1, 1, 0]);
    put(&mut chunk, 578, &[0x01, 0xff, 0xff, 22, 0, 0, 0]);
    put_u32(&mut chunk, 585, 589);
    put(&mut chunk, 595, &[1, 0, 0x50, 0, 0, 0]);
    put(&mut chunk, 601, &[0x02, 0x0d, 0, 0, 0x05, 0x04, 0x00]);
    put(&mut chunk, 608, &[1, 0, 0, 0, 2, 0, 0x05, 0, 0x00, 0x80]);
    put_u32(&mut chunk, 618, 110);
    chunk
}

/// The first example with some bytes set.
pub fn first_with(changes: &[(usize, &[u8])]) -> Vec<u8> {
    let mut chunk = first();
    for (at, bytes) in changes {
        put(&mut chunk, *at, bytes);
    }
    chunk
}

/// `<P>`, the one value given, `</P>`.
pub fn shown(kind: u8, value: &[u8]) -> Vec<u8> {
    one_record(|w| {
        w.instance(|w| w.open("P", |w| w.substitution(0x0d, 0)), &[plain(kind, value)]);
    })
}

fn of_the_table() -> Vec<Question> {
    let file_time = |ticks: u64| shown(0x11, &ticks.to_le_bytes());
    let mut short = first();
    put(&mut short, 516, &[27]);
    put(&mut short, 535, &[27, 0, 0, 0]);
    vec![
        Question::text("example: the first", first(), "<P>-32768</P>"),
        Question::text("example: UInt16", first_with(&[(614, &[0x06])]), "<P>32768</P>"),
        Question::text("example: Int16 ff 7f", first_with(&[(616, &[0xff, 0x7f])]), "<P>32767</P>"),
        Question::text(
            "example: Int8 ff",
            first_with(&[(612, &[1]), (614, &[0x03]), (616, &[0xff])]),
            "<P>-1</P>",
        ),
        Question::text("example: FileTime 0", file_time(0), "<P>1601-01-01T00:00:00.0000000Z</P>"),
        Question::text(
            "example: FileTime of 1970",
            file_time(116_444_736_000_000_000),
            "<P>1970-01-01T00:00:00.0000000Z</P>",
        ),
        Question::refused("example: FileTime too large", file_time(2_650_467_744_000_000_000), 11),
        Question::refused("example: size 28", chunk_with(512, &record(1, &[])), 8),
        Question::refused("example: size 27", short, 7),
        Question::refused("example: pointer 511", first_with(&[(546, &[0xff, 1, 0, 0])]), 9),
    ]
}

fn value_counts() -> Vec<Question> {
    let with = |count: usize| {
        one_record(|w| {
            let values: Vec<Value> = (0..count).map(|at| plain(0x04, [at as u8])).collect();
            w.instance(|w| w.open("P", |w| w.substitution(0x0d, 255)), &values);
        })
    };
    vec![
        Question::text("example: 256 values", with(256), "<P>255</P>"),
        Question::refused("example: 257 values", with(257), 12),
    ]
}

pub fn all() -> Vec<Question> {
    flat([of_the_table(), value_counts()])
}
