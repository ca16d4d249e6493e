//! Texts: numbers, strings, where they begin and end, and rooms.

use super::{text, ByHand};
use log_writer::evt::{file_of_record, file_with, put_round, record as record_of, Fields};
use log_writer::{u16s, utf16};

/// What the texts begin with.
const FRONT: &str = "7 9 11 13 15";
const ROOM: usize = 1 << 18;

pub fn all() -> Vec<ByHand> {
    let all = [numbers(), joined(), first_strings(), closed(), characters(), cut(), rooms()];
    all.into_iter().flatten().collect()
}

fn log(string_count: u16, string_offset: u32, body: &[u8]) -> Vec<u8> {
    file_of_record(&Fields::distinct(string_count, string_offset), body)
}

/// The text is FRONT and what follows it.
fn says(name: &'static str, file: Vec<u8>, strings: &str) -> ByHand {
    text(name, file, 48, ROOM, Ok(format!("{FRONT}{strings}").into_bytes()))
}

fn none(name: &'static str, file: Vec<u8>) -> ByHand {
    text(name, file, 48, ROOM, Err(18))
}

fn numbers() -> Vec<ByHand> {
    let largest = Fields {
        number: u32::MAX,
        written: 1 << 31,
        id: 0xc000_0007,
        kind: u16::MAX,
        category: 1 << 15,
        ..Fields::distinct(0, 56)
    };
    let file = file_of_record(&largest, &[]);
    let due = b"4294967295 2147483648 3221225479 65535 32768".to_vec();
    let zeros = file_of_record(&Fields::default(), &[]);
    vec![
        text("large numbers", file, 48, ROOM, Ok(due)),
        text("the smallest text", zeros, 48, 9, Ok(b"0 0 0 0 0".to_vec())),
        says("no strings", log(0, 56, &[]), ""),
        says("no strings, far away", log(0, 0xffff_ffff, &[]), ""),
        says("no strings, in the fixed fields", log(0, 55, &utf16("A")), ""),
    ]
}

fn joined() -> Vec<ByHand> {
    let spaces = " ".repeat(65_535);
    vec![
        says("one string", log(1, 56, &utf16("one\0")), " one"),
        says("two strings", log(2, 56, &utf16("one\0two\0")), " one two"),
        says("one string of two", log(1, 56, &utf16("one\0two\0")), " one"),
        says("one string, and one that is not closed", log(1, 56, &utf16("one\0two")), " one"),
        says("strings with spaces", log(3, 56, &utf16("a b\0 \0c\0")), " a b   c"),
        says("an empty string", log(1, 56, &[0; 2]), " "),
        says("empty strings", log(3, 56, &utf16("\0x\0\0")), "  x "),
        says("65,535 strings", log(65_535, 56, &vec![0; 131_070]), &spaces),
        none("65,535 strings, and a byte too few", log(65_535, 56, &vec![0; 131_069])),
    ]
}

/// The record has 65 bytes, the last 4 of which are 41 00 00 00.
fn first_strings() -> Vec<ByHand> {
    let from = |offset: u32| log(1, offset, &[0, 0x41, 0, 0, 0]);
    let mut cases = vec![
        says("a string at 56", from(56), " \u{4100}"),
        says("a string at 57", from(57), " A"),
        says("a string of the last unit", from(59), " "),
    ];
    let outside = [0, 1, 36, 54, 55, 60, 61, 62, 63, 64, 65, 66, 0x8000_0038, 0xffff_ffff];
    cases.extend(outside.map(|offset| none("a string from elsewhere", from(offset))));
    cases
}

/// The second length has zeros itself; that of a record of 256 bytes begins with one.
fn closed() -> Vec<ByHand> {
    let ended = |last: [u8; 2]| [&[0xee; 194][..], &last].concat();
    let units = format!(" {}", "\u{eeee}".repeat(96));
    vec![
        none("a string that is not closed", log(1, 56, &utf16("A"))),
        none("no room for a string", log(1, 56, &[])),
        none("a string of one byte", log(1, 56, &[0])),
        none("an odd string that is not closed", log(1, 57, &[0xee, 0x41, 0])),
        none("a second string that is not there", log(2, 56, &utf16("A\0"))),
        none("a second string that is not closed", log(2, 56, &utf16("A\0B"))),
        none("a zero unit that ends in the length", log(1, 57, &ended([0xee, 0]))),
        says("a zero unit before the length", log(1, 58, &ended([0, 0])), &units),
    ]
}

fn characters() -> Vec<ByHand> {
    let one = |units: &[u16]| log(1, 56, &[&u16s(units)[..], &[0, 0]].concat());
    let marks = one(&[0x26, 0x3c, 0x3e, 0x22, 0x27, 9, 10, 13]);
    let halves = log(2, 56, &u16s(&[0xd83d, 0, 0xde00, 0]));
    let mut cases = vec![
        says("escapes", marks, " &amp;&lt;&gt;&quot;&apos;&#9;&#10;&#13;"),
        says("letters", one(&[0x20, 0x7f, 0xe9, 0x20ac]), " \u{20}\u{7f}\u{e9}\u{20ac}"),
        says("a pair", one(&[0xd83d, 0xde00]), " \u{1f600}"),
        says("the last pair", one(&[0xdbff, 0xdfff]), " \u{10ffff}"),
        says("halves in the wrong order", one(&[0xde00, 0xd83d]), " \u{fffd}\u{fffd}"),
        says("halves in two strings", halves, " \u{fffd} \u{fffd}"),
    ];
    let no_characters = [1, 8, 0xb, 0x1f, 0xd800, 0xdbff, 0xdc00, 0xdfff, 0xfffe, 0xffff];
    let replaced = no_characters
        .map(|unit| says("a unit that is no character", one(&[0x61, unit, 0x62]), " a\u{fffd}b"));
    cases.extend(replaced);
    cases
}

/// The file ends after each byte of the record.
fn cut() -> Vec<ByHand> {
    let body = [&[0xee][..], &utf16("ä&\0\0\u{1f600}\0")].concat();
    let bytes = record_of(&Fields::distinct(3, 57), &body);
    let due = format!("{FRONT} ä&amp;  \u{1f600}").into_bytes();
    let at = |behind: usize, offset: usize| {
        let mut file = file_with(0, &vec![0x41; behind]);
        put_round(&mut file, offset, &bytes);
        text("a text cut by the end", file, offset as u64, 99, Ok(due.clone()))
    };
    let alone = (48..48 + bytes.len()).map(|offset| at(bytes.len(), offset));
    alone.chain((48..248).map(|offset| at(200, offset))).collect()
}

/// The text has 13 bytes and é, which has two.
fn rooms() -> Vec<ByHand> {
    let file = log(1, 56, &utf16("é\0"));
    let due = || Ok("7 9 11 13 15 é".as_bytes().to_vec());
    let with = |room: usize| text("too small a room", file.clone(), 48, room, Err(13));
    let mut dirty = file.clone();
    dirty[36] = 1;
    let mut wrong = dirty.clone();
    wrong[8] = 0;
    let mut cases = vec![
        text("just enough room", file.clone(), 48, 15, due()),
        text("a byte of room too many", file.clone(), 48, 16, due()),
        text("no room, and no record", file.clone(), 49, 0, Err(18)),
        text("no room, and no string", log(1, 56, &utf16("é")), 48, 0, Err(18)),
        text("no room, and no trailer", dirty.clone(), 48, 0, Err(17)),
        text("no record, and no trailer", dirty, 0, 99, Err(17)),
        text("no room, and a wrong header", wrong.clone(), 48, 0, Err(2)),
        text("no room, and no file", wrong[..47].to_vec(), 48, 0, Err(1)),
    ];
    cases.extend([0, 1, 12, 13, 14].map(with));
    cases
}
