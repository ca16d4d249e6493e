//! Refused texts of fragments, instances and definitions: the number and the
//! place, and which test comes first where several would fail.

mod common;

use common::*;
use log_writer::*;
use second_reader::binxml::record_text;
use second_reader::numbers::Refusal;

/// The refusal of the sound body cut to `kept` bytes.
fn cut(made: &Writer, kept: usize) -> (u32, u64) {
    refusal(&chunk_with(512, &record(1, &made.bytes[..kept])))
}

/// The refusal of the body with one byte set.
fn with_byte(made: &Writer, at: usize, byte: u8) -> (u32, u64) {
    let mut chunk = chunk_of(made);
    chunk[at] = byte;
    refusal(&chunk)
}

fn with_u32(made: &Writer, at: usize, number: u32) -> (u32, u64) {
    let mut chunk = chunk_of(made);
    put_u32(&mut chunk, at, number);
    refusal(&chunk)
}

/// Document 01's first example: header 536, 0c 540, pointer 546, definition
/// 550, data size 570, data 574, element 578, length 581, name pointer 585,
/// name 589, unit count 595, unit 597, end bytes 599, 02 601, substitution
/// 602, 04 606, 00 607, count 608, descriptor 612, value 616, end 618.
fn example() -> Writer {
    body(|w| {
        w.instance(|w| w.open("P", |w| w.substitution(0x0d, 0)), &[plain(0x05, [0, 0x80])]);
    })
}

#[test]
fn no_reading() {
    let chunk = chunk_of(&example());
    let without = Refusal::without_place;
    assert_eq!(record_text(&chunk[1..], 512, 9), Err(without(1)));
    assert_eq!(record_text(&chunk[1..], 0, 9), Err(without(1)));
    for offset in [0, 511, 513, 65_536, u64::MAX, u64::MAX - 27, (1 << 32) + 512] {
        assert_eq!(record_text(&chunk, offset, 9), Err(without(7)));
    }
    let low = chunk_with(400, &record(1, &[]));
    assert_eq!(record_text(&low, 400, 9), Err(without(7)));
}

#[test]
fn the_example_cut_short() {
    let made = example();
    assert_eq!(made.here(), 618);
    for kept in 0..34 {
        // The stream header, the instance's fields, the definition's fixed
        // part: each missing field is due at the end of the stretch.
        assert_eq!(cut(&made, kept), (8, 536 + kept as u64));
    }
    for kept in 38..72 {
        assert_eq!(cut(&made, kept), (8, 570));
    }
    for kept in 72..76 {
        assert_eq!(cut(&made, kept), (8, 536 + kept as u64));
    }
    for kept in 76..80 {
        assert_eq!(cut(&made, kept), (8, 608));
    }
    for kept in 80..82 {
        assert_eq!(cut(&made, kept), (8, 612));
    }
}

#[test]
fn stream_headers() {
    for at in 536..540 {
        assert_eq!(with_byte(&example(), at, 0x77), (8, 536));
    }
    for at in 574..578 {
        assert_eq!(with_byte(&example(), at, 0x77), (8, 574));
    }
    // Cut short and wrong: cut short.
    assert_eq!(refusal(&chunk_with(512, &record(1, &[0x77, 0x77]))), (8, 538));
}

#[test]
fn tokens_after_a_stream_header() {
    for token in [0x00, 0x02, 0x05, 0x0d, 0x0f, 0x4c, 0x81] {
        assert_eq!(with_byte(&example(), 540, token), (8, 540));
        assert_eq!(with_byte(&example(), 578, token), (8, 578));
    }
    assert_eq!(with_byte(&example(), 578, 0x0c), (8, 578));
}

#[test]
fn definition_pointers() {
    for pointer in [0, 511, 65_513, 65_536, u32::MAX] {
        assert_eq!(with_u32(&example(), 546, pointer), (9, 546));
    }
    let mut chunk = chunk_of(&example());
    // At the chunk's end: the fixed part fits, and data of size 0; then the
    // definition is pointed to, and 550 is where the value count stands.
    put_u32(&mut chunk, 546, 65_512);
    put_u32(&mut chunk, 550, 0);
    assert_eq!(refusal(&chunk), (8, 65_536));
    put_u32(&mut chunk, 65_532, 1);
    assert_eq!(refusal(&chunk), (9, 546));
}

#[test]
fn an_inline_definition_that_leaves_its_stretch_is_8() {
    assert_eq!(with_u32(&example(), 570, 45), (8, 570));
    assert_eq!(with_u32(&example(), 570, u32::MAX), (8, 570));
    // It fits, but leaves 3 bytes for the value count.
    assert_eq!(with_u32(&example(), 570, 41), (8, 618));
}

#[test]
fn value_counts_and_sizes() {
    assert_eq!(with_u32(&example(), 608, 257), (12, 608));
    assert_eq!(with_u32(&example(), 608, u32::MAX), (12, 608));
    assert_eq!(with_u32(&example(), 608, 256), (8, 608));
    assert_eq!(with_u32(&example(), 608, 2), (8, 608));
    assert_eq!(with_byte(&example(), 612, 3), (8, 612));
    let values = [plain(0x04, [1]), plain(0x04, [1])];
    let two = body(|w| w.instance(|w| w.open("P", |_| ()), &values));
    let first_descriptor = two.here() - 10;
    assert_eq!(with_byte(&two, first_descriptor + 4, 2), (8, first_descriptor as u64 + 4));
    assert_eq!(with_byte(&two, first_descriptor, 2), (8, first_descriptor as u64 + 4));
    assert_eq!(with_byte(&two, first_descriptor, 3), (8, first_descriptor as u64));
}

#[test]
fn values_are_tested_before_the_definitions_content() {
    let mut chunk = chunk_of(&example());
    chunk[574] = 0xff;
    put_u32(&mut chunk, 608, 257);
    assert_eq!(refusal(&chunk), (12, 608));
}

#[test]
fn the_definitions_data() {
    // Data that ends before or in the stream header, or before the token. The
    // value count then stands earlier, and is set to 0.
    for (size, place) in [(0, 574), (3, 577), (4, 578)] {
        let mut chunk = chunk_of(&example());
        put_u32(&mut chunk, 570, size);
        put_u32(&mut chunk, 574 + size as usize, 0);
        assert_eq!(refusal(&chunk), (8, place));
    }
    assert_eq!(with_byte(&example(), 607, 0x01), (8, 607));
}

#[test]
fn the_closing_00_of_a_definition() {
    let mut free = writer_at(40_000);
    free.bare_definition(|w| w.open("P", |_| ()));
    let end = free.here();
    let mut chunk = chunk_of(&body(|w| w.pointing(40_000, &[])));
    put(&mut chunk, 40_000, &free.bytes);
    assert_eq!(record_text(&chunk, 512, 9).unwrap(), b"<P></P>");
    let size = end - 40_024;
    put_u32(&mut chunk, 40_020, size as u32 - 1);
    assert_eq!(refusal(&chunk), (8, end as u64 - 1));
    put_u32(&mut chunk, 40_020, size as u32);
    chunk[end - 1] = 0x0f;
    assert_eq!(refusal(&chunk), (8, end as u64 - 1));
}

/// A record whose definition shows its one value in an element's content.
fn shown(kind: u8, value: &[u8]) -> Writer {
    body(|w| w.instance(|w| w.open("P", |w| w.substitution(0x0d, 0)), &[plain(kind, value)]))
}

/// The same in an attribute.
fn in_attribute(kind: u8, value: &[u8]) -> Writer {
    let element = |w: &mut Writer| {
        w.with_attributes("P", |w| w.attribute("a", |w| w.substitution(0x0e, 0)));
    };
    body(|w| w.instance(element, &[plain(kind, value)]))
}

#[test]
fn values_that_are_wrong() {
    for make in [shown, in_attribute] {
        let start = |made: &Writer, size: usize| (made.here() - size) as u64;
        for kind in [0x02, 0x16, 0x20, 0x22, 0x81, 0xff] {
            let made = make(kind, &[0; 3]);
            assert_eq!(refusal(&chunk_of(&made)), (11, start(&made, 3) - 2));
        }
        let odd = make(0x01, &[0; 3]);
        assert_eq!(refusal(&chunk_of(&odd)), (11, start(&odd, 3) - 4));
        let sid = make(0x13, &[1; 9]);
        assert_eq!(refusal(&chunk_of(&sid)), (11, start(&sid, 9) - 4));
        let sid = make(0x13, &[0; 72]);
        assert_eq!(refusal(&chunk_of(&sid)), (11, start(&sid, 72) - 4));
        let sid = make(0x13, &[1, 1, 0, 0, 0, 0, 0, 0]);
        assert_eq!(refusal(&chunk_of(&sid)), (11, start(&sid, 8)));
        let time = make(0x11, &[0xff; 8]);
        assert_eq!(refusal(&chunk_of(&time)), (11, start(&time, 8)));
    }
}

#[test]
fn bin_xml_in_an_attribute() {
    let empty = in_attribute(0x21, &[]);
    assert_eq!(refusal(&chunk_of(&empty)), (11, empty.here() as u64 - 2));
    let full = in_attribute(0x21, &[0xff; 5]);
    assert_eq!(refusal(&chunk_of(&full)), (11, full.here() as u64 - 7));
}

#[test]
fn fragments_in_values() {
    let start = shown(0x21, &[]).here() as u64;
    assert_eq!(refusal(&chunk_of(&shown(0x21, &[0x0f, 1, 1]))), (8, start + 3));
    assert_eq!(refusal(&chunk_of(&shown(0x21, &[0x0f, 1, 1, 1]))), (8, start));
    assert_eq!(refusal(&chunk_of(&shown(0x21, &[0x0f, 1, 1, 0]))), (8, start + 4));
    assert_eq!(refusal(&chunk_of(&shown(0x21, &[0x0f, 1, 1, 0, 3]))), (8, start + 4));
    // A value's inline definition must fit the value, not the record.
    let instance = [0x0f, 1, 1, 0, 0x0c, 1, 0, 0, 0, 0];
    let pointer = (start as u32 + 14).to_le_bytes();
    let value = [&instance[..], &pointer, &[0; 20], &[1, 0, 0, 0]].concat();
    assert_eq!(refusal(&chunk_of(&shown(0x21, &value))), (8, start + 34));
}

#[test]
fn elements_of_a_value_have_no_unread_bytes_and_no_values() {
    let start = shown(0x21, &[]).here();
    let mut value = writer_at(start);
    let mut place = 0;
    value.fragment(|w| {
        w.open("i", |w| {
            place = w.here() as u64 + 1;
            w.substitution(0x0e, 0);
        });
    });
    assert_eq!(refusal(&chunk_of(&shown(0x21, &value.bytes))), (10, place));
}
