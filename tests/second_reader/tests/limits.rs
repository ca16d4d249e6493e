//! The limits of depth and count, each at its last value that passes and the
//! first that does not, and texts far above the room.

mod common;

use common::*;
use log_writer::*;
use second_reader::binxml::{read_record, record_text, text_length};
use second_reader::numbers::Refusal;

fn answer(chunk: &[u8]) -> Result<usize, Refusal> {
    record_text(chunk, 512, 1 << 20).map(|text| text.len())
}

/// Elements inside each other; notes the place of the deepest one's token.
fn deep(w: &mut Writer, depth: usize, place: &mut usize) {
    *place = w.here();
    match depth {
        1 => w.empty("e"),
        _ => w.open("e", |w| deep(w, depth - 1, place)),
    }
}

#[test]
fn elements_32_deep() {
    let mut place = 0;
    let made = body(|w| deep(w, 32, &mut place));
    assert_eq!(answer(&chunk_of(&made)), Ok(31 * 7 + 4));
    let made = body(|w| deep(w, 33, &mut place));
    assert_eq!(answer(&chunk_of(&made)), Err(Refusal::at(12, place)));
}

/// Instances inside each other's one BinXml value, all of the definition at
/// 40,000, which shows value 0; the innermost value is Null. Answers the chunk
/// and the start of the value of each fragment below the record's own.
fn nested_fragments(fragments: usize, elements_each: usize) -> (Vec<u8>, Vec<usize>) {
    let mut starts = Vec::new();
    let mut value: Vec<u8> = Vec::new();
    for level in (1..=fragments).rev() {
        let kind = if level == fragments { 0x00 } else { 0x21 };
        let mut writer = writer_at(0);
        writer.stream_header();
        writer.pointing(40_000, &[plain(kind, value)]);
        value = writer.bytes;
    }
    for level in 1..fragments {
        // Each instance takes 4 + 10 + 4 + 4 bytes before its value.
        starts.push(BODY + 22 * level);
    }
    let mut chunk = chunk_with(512, &record(1, &value));
    let mut free = writer_at(40_000);
    free.bare_definition(|w| layers(w, elements_each));
    put(&mut chunk, 40_000, &free.bytes);
    (chunk, starts)
}

fn layers(w: &mut Writer, left: usize) {
    w.open("e", |w| match left {
        1 => w.substitution(0x0d, 0),
        _ => layers(w, left - 1),
    });
}

#[test]
fn fragments_8_deep() {
    let (chunk, _) = nested_fragments(8, 1);
    assert_eq!(answer(&chunk), Ok(8 * 7));
    let (chunk, starts) = nested_fragments(9, 1);
    assert_eq!(answer(&chunk), Err(Refusal::at(12, starts[7])));
}

#[test]
fn the_fragment_depth_is_tested_before_its_bytes() {
    let (mut chunk, starts) = nested_fragments(9, 1);
    chunk[starts[7]] = 0xff;
    assert_eq!(answer(&chunk), Err(Refusal::at(12, starts[7])));
}

#[test]
fn elements_are_32_deep_over_all_fragments() {
    let (chunk, _) = nested_fragments(8, 4);
    assert_eq!(answer(&chunk), Ok(32 * 7));
    let (chunk, _) = nested_fragments(7, 5);
    assert_eq!(answer(&chunk).unwrap_err().number, 12);
}

#[test]
fn an_empty_bin_xml_value_tests_no_limit() {
    let (mut chunk, starts) = nested_fragments(8, 1);
    // The innermost value, of size 0, becomes BinXml.
    let innermost_type = starts[6] + 20;
    assert_eq!(chunk[innermost_type], 0x00);
    chunk[innermost_type] = 0x21;
    assert_eq!(answer(&chunk), Ok(8 * 7));
}

/// A record of 1 + 255 * (1 + 1 + 255) = 65,536 counted things, and `more`
/// literals at the end.
fn counted(more: usize) -> (Vec<u8>, usize) {
    let inner = |w: &mut Writer| w.open("i", |w| (0..255).for_each(|_| w.literal("")));
    let mut place = 0;
    let made = body(|w| {
        let element = |w: &mut Writer| {
            w.open("O", |w| {
                (0..255).for_each(|_| w.substitution(0x0d, 0));
                place = w.here();
                (0..more).for_each(|_| w.literal(""));
            });
        };
        w.instance(element, &[Value::Fragment(&inner)]);
    });
    (chunk_of(&made), place)
}

#[test]
fn items_up_to_65_536() {
    let (chunk, _) = counted(0);
    assert_eq!(answer(&chunk), Ok(7 + 255 * 7));
    let (chunk, place) = counted(1);
    assert_eq!(answer(&chunk), Err(Refusal::at(12, place)));
}

#[test]
fn the_limit_is_tested_before_the_fields_of_the_token() {
    let (mut chunk, place) = counted(1);
    chunk[place + 1] = 0x99;
    assert_eq!(answer(&chunk), Err(Refusal::at(12, place)));
    // A token that is refused as such is not counted.
    chunk[place] = 0x99;
    assert_eq!(answer(&chunk), Err(Refusal::at(8, place)));
}

/// A record whose text is a string of `units` quotation marks, `outer` times
/// `inner` times over, and the length of that text.
fn long_text(outer: usize, inner: usize, units: usize) -> (Vec<u8>, u64) {
    let string = utf16(&"\"".repeat(units));
    let value = |w: &mut Writer| w.pointing(50_000, &[plain(0x01, &string[..])]);
    let mut chunk = chunk_of(&body(|w| w.pointing(40_000, &[Value::Fragment(&value)])));
    for (at, times) in [(40_000, outer), (50_000, inner)] {
        let mut free = writer_at(at);
        free.bare_definition(|w| {
            w.open("e", |w| (0..times).for_each(|_| w.substitution(0x0d, 0)));
        });
        put(&mut chunk, at, &free.bytes);
    }
    let inner_length = 7 + inner as u64 * units as u64 * 6;
    (chunk, 7 + outer as u64 * inner_length)
}

#[test]
fn a_long_text_is_counted_and_not_stored() {
    let (chunk, length) = long_text(30, 60, 1_000);
    let reading = read_record(&chunk, 512, 100);
    assert_eq!(reading.length, Ok(length));
    assert_eq!(reading.text.len(), 100);
    assert_eq!(text_length(&chunk, 512), Ok(length));
    assert_eq!(record_text(&chunk, 512, length - 1), Err(Refusal::without_place(13)));
    assert_eq!(record_text(&chunk, 512, length).unwrap().len() as u64, length);
}

#[test]
#[ignore = "takes minutes without optimisation"]
fn a_text_longer_than_32_bits_can_say() {
    let (chunk, length) = long_text(50, 1_200, 15_000);
    assert!(length > u64::from(u32::MAX));
    assert_eq!(text_length(&chunk, 512), Ok(length));
    assert_eq!(record_text(&chunk, 512, 100), Err(Refusal::without_place(13)));
}
