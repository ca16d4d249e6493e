//! The text of a record of an EVT log.

use log_writer::evt::{file_of_record, file_with, put_round, record as record_of, Fields};
use log_writer::{put_u32, u16s, utf16};
use second_reader::evt::{record, text};

const CLEAN: u32 = 0;
/// What the texts begin with.
const FRONT: &str = "7 9 11 13 15";

fn log(string_count: u16, string_offset: u32, body: &[u8]) -> Vec<u8> {
    file_of_record(&Fields::distinct(string_count, string_offset), body)
}

/// The text is FRONT and what follows it, or there is no record.
#[track_caller]
fn says(file: &[u8], due: Option<&str>) {
    let due = due.map(|strings| format!("{FRONT}{strings}").into_bytes()).ok_or(18);
    assert_eq!(text(file, 48, 1 << 20), due);
    assert_eq!(record(file, 48).map(|_| ()), due.map(|_| ()));
}

/// The units of one string, and its zero.
fn one(units: &[u16]) -> Vec<u8> {
    log(1, 56, &[&u16s(units)[..], &[0, 0]].concat())
}

#[test]
fn numbers_are_decimal() {
    let all = Fields {
        number: 0xffff_ffff,
        generated: 1,
        written: 0x8000_0000,
        id: 0xc000_0007,
        kind: 0xffff,
        category: 0x8000,
        flags: 0xffff,
        closing_number: 0xffff_ffff,
        ..Fields::default()
    };
    let file = file_of_record(&all, &[]);
    let due = b"4294967295 2147483648 3221225479 65535 32768";
    assert_eq!(text(&file, 48, 99), Ok(due.to_vec()));
    let file = file_of_record(&Fields::default(), &[]);
    assert_eq!(text(&file, 48, 99), Ok(b"0 0 0 0 0".to_vec()));
}

#[test]
fn without_strings_their_offset_is_not_looked_at() {
    for offset in [0, 1, 55, 56, 60, 61, 0x7fff_ffff, 0xffff_ffff] {
        says(&log(0, offset, &[]), Some(""));
        says(&log(0, offset, &utf16("unclosed")), Some(""));
    }
}

#[test]
fn strings_are_joined_by_single_spaces() {
    says(&log(1, 56, &utf16("one\0")), Some(" one"));
    says(&log(2, 56, &utf16("one\0two\0")), Some(" one two"));
    says(&log(3, 56, &utf16("a b\0 \0c\0")), Some(" a b   c"));
    // Those beyond the count are not read.
    says(&log(1, 56, &utf16("one\0two\0")), Some(" one"));
    says(&log(1, 56, &utf16("one\0unclosed")), Some(" one"));
}

#[test]
fn an_empty_string_has_its_space() {
    says(&log(1, 56, &[0, 0]), Some(" "));
    says(&log(2, 56, &[0; 4]), Some("  "));
    says(&log(3, 56, &utf16("\0x\0\0")), Some("  x "));
    says(&log(3, 56, &[0; 5]), None);
}

#[test]
fn offsets_of_the_first_string() {
    // From 55 on there is a zero unit, and a record it is not.
    let mut file = log(1, 55, &[0, 0x41, 0, 0, 0]);
    says(&file, None);
    put_u32(&mut file, 48 + 36, 56);
    says(&file, Some(" \u{4100}"));
    put_u32(&mut file, 48 + 36, 57);
    says(&file, Some(" A"));
    // Only the last zero unit is left, then half of it.
    put_u32(&mut file, 48 + 36, 59);
    says(&file, Some(" "));
    for offset in [0, 1, 36, 54, 60, 61, 62, 64, 65, 66, 0x8000_0038, 0xffff_ffff] {
        put_u32(&mut file, 48 + 36, offset);
        says(&file, None);
    }
}

/// A string may begin anywhere, also inside the source's name.
#[test]
fn strings_far_from_the_fixed_fields() {
    let body = [vec![0xee; 1_001], utf16("far\0"), vec![0xee; 3]].concat();
    says(&log(1, 56 + 1_001, &body), Some(" far"));
    says(&log(1, 58, &utf16("Source\0")), Some(" ource"));
}

/// The zero unit has to stand before the second length, which has zeros itself.
#[test]
fn strings_that_are_not_closed() {
    says(&log(1, 56, &utf16("A")), None);
    says(&log(1, 56, &[]), None);
    says(&log(1, 57, &[0xee, 0x41, 0]), None);
    says(&log(2, 56, &utf16("A\0")), None);
    says(&log(2, 56, &utf16("A\0B")), None);
    // The record has 256 bytes: a zero unit is made of the last byte before its second
    // length, and of the first one of that, 00 01 00 00.
    let ended = |last: [u8; 2]| [&[0xee; 194][..], &last].concat();
    says(&log(1, 57, &ended([0xee, 0])), None);
    says(&log(1, 57, &ended([0, 0])), None);
    says(&log(1, 58, &ended([0, 0])), Some(&format!(" {}", "\u{eeee}".repeat(96))));
}

#[test]
fn as_many_strings_as_can_be_counted() {
    let spaces = " ".repeat(65_535);
    says(&log(65_535, 56, &vec![0; 131_070]), Some(&spaces));
    says(&log(65_535, 56, &vec![0; 131_069]), None);
    says(&log(65_534, 56, &vec![0; 131_069]), Some(&spaces[1..]));
}

#[test]
fn characters_that_are_escaped() {
    says(&one(&[0x26, 0x3c, 0x3e, 0x22, 0x27]), Some(" &amp;&lt;&gt;&quot;&apos;"));
    says(&one(&[9, 10, 13]), Some(" &#9;&#10;&#13;"));
    says(&one(&[0x20, 0x7f, 0xe9, 0x20ac]), Some(" \u{20}\u{7f}\u{e9}\u{20ac}"));
}

#[test]
fn units_that_are_no_characters() {
    for unit in [1, 8, 0xb, 0xc, 0xe, 0x1f, 0xd800, 0xdbff, 0xdc00, 0xdfff, 0xfffe, 0xffff] {
        says(&one(&[0x61, unit, 0x62]), Some(" a\u{fffd}b"));
    }
    says(&one(&[0xd83d, 0xde00]), Some(" \u{1f600}"));
    says(&one(&[0xdbff, 0xdfff]), Some(" \u{10ffff}"));
    says(&one(&[0xde00, 0xd83d]), Some(" \u{fffd}\u{fffd}"));
    says(&one(&[0xfffd, 0xe000, 0xd7ff]), Some(" \u{fffd}\u{e000}\u{d7ff}"));
    // A pair does not go from one string into the next.
    let halves = u16s(&[0xd83d, 0, 0xde00, 0]);
    says(&log(2, 56, &halves), Some(" \u{fffd} \u{fffd}"));
}

/// Wherever the file's end falls: in the fields, in a unit, in a pair, in a zero unit.
#[test]
fn texts_cut_by_the_end() {
    let body = [&[0xee][..], &utf16("ä&\0\0\u{1f600}\0")].concat();
    let bytes = record_of(&Fields::distinct(3, 57), &body);
    let due = "7 9 11 13 15 ä&amp;  \u{1f600}".as_bytes();
    for behind in [bytes.len(), bytes.len() + 1, 200] {
        for offset in 48..48 + behind {
            let mut file = file_with(CLEAN, &vec![0x41; behind]);
            put_round(&mut file, offset, &bytes);
            assert_eq!(text(&file, offset as u64, 99), Ok(due.to_vec()));
        }
    }
}

#[test]
fn the_room_comes_last() {
    let file = log(1, 56, &utf16("é\0"));
    // "7 9 11 13 15 " are 13 bytes, and é two.
    assert_eq!(text(&file, 48, 15), Ok("7 9 11 13 15 é".as_bytes().to_vec()));
    assert_eq!(text(&file, 48, 16), Ok("7 9 11 13 15 é".as_bytes().to_vec()));
    for room in [0, 1, 13, 14] {
        assert_eq!(text(&file, 48, room), Err(13));
    }
    assert_eq!(text(&file, 47, 0), Err(18));
    assert_eq!(text(&log(1, 56, &utf16("é")), 48, 0), Err(18));
    let mut dirty = file.clone();
    dirty[36] = 1;
    assert_eq!(text(&dirty, 48, 0), Err(17));
    assert_eq!(text(&dirty, 47, 0), Err(17));
    dirty[4] = 0;
    assert_eq!(text(&dirty, 47, 0), Err(2));
    assert_eq!(text(&dirty[..47], 47, 0), Err(1));
}
