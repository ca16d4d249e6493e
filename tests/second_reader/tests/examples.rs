//! Document 01's examples, marked and unmarked, with its own bytes and numbers.

mod common;

use common::*;
use log_writer::*;
use second_reader::binxml::record_text;
use second_reader::listing::listing;
use second_reader::numbers::Refusal;
use second_reader::record::{search_bytes, search_chunk, whole_record};

/// The record of the first example, byte by byte as document 01 gives it.
fn first_record() -> Vec<u8> {
    let mut bytes = vec![0; 110];
    let mut put = |offset: usize, part: &[u8]| put(&mut bytes, offset - 512, part);
    put(512, &[0x2a, 0x2a, 0, 0, 110, 0, 0, 0, 1]);
    put(536, &[0x0f, 1, 1, 0]);
    put(540, &[0x0c, 1, 0, 0, 0, 0]);
    put(546, &550u32.to_le_bytes());
    put(570, &34u32.to_le_bytes());
    put(574, &[0x0f, 1, 1, 0]);
    put(578, &[0x01, 0xff, 0xff, 22, 0, 0, 0]);
    put(585, &589u32.to_le_bytes());
    put(595, &[1, 0, 0x50, 0, 0, 0]);
    put(601, &[0x02, 0x0d, 0, 0, 0x05, 0x04, 0x00]);
    put(608, &[1, 0, 0, 0, 2, 0, 0x05, 0, 0x00, 0x80]);
    put(618, &110u32.to_le_bytes());
    bytes
}

fn text(chunk: &[u8], room: u64) -> Result<String, Refusal> {
    record_text(chunk, 512, room).map(|bytes| String::from_utf8(bytes).unwrap())
}

fn number(chunk: &[u8], room: u64) -> u32 {
    text(chunk, room).unwrap_err().number
}

#[test]
fn first_text() {
    let chunk = chunk_with(512, &first_record());
    assert_eq!(text(&chunk, 65_536).unwrap(), "<P>-32768</P>");
    assert_eq!(text(&chunk, 13).unwrap().len(), 13);
}

#[test]
fn first_listing() {
    let mut chunk = chunk_with(512, &first_record());
    seal_chunk(&mut chunk, 622);
    let file = [sound_file_header(), chunk].concat();
    assert_eq!(listing(&file), b"header ok\nchunk 0 ok\n512 1 <P>-32768</P>\n");
}

/// The first example with another descriptor type and value.
fn with_value(kind: u8, value: &[u8]) -> Vec<u8> {
    let body = body(|w| {
        w.instance(|w| w.open("P", |w| w.substitution(0x0d, 0)), &[plain(kind, value)]);
    });
    chunk_of(&body)
}

#[test]
fn unsigned_and_rooms() {
    let mut chunk = chunk_with(512, &first_record());
    chunk[614] = 0x06;
    assert_eq!(text(&chunk, 65_536).unwrap(), "<P>32768</P>");
    assert_eq!(text(&chunk, 12).unwrap(), "<P>32768</P>");
    assert_eq!(text(&chunk, 11), Err(Refusal { number: 13, place: 0 }));
    assert_eq!(text(&chunk, 0), Err(Refusal { number: 13, place: 0 }));
}

#[test]
fn values() {
    let shown = |kind, value: &[u8]| text(&with_value(kind, value), 65_536).unwrap();
    assert_eq!(shown(0x05, &[0xff, 0x7f]), "<P>32767</P>");
    assert_eq!(shown(0x03, &[0xff]), "<P>-1</P>");
    assert_eq!(shown(0x11, &[0; 8]), "<P>1601-01-01T00:00:00.0000000Z</P>");
    let epoch = 116_444_736_000_000_000u64.to_le_bytes();
    assert_eq!(shown(0x11, &epoch), "<P>1970-01-01T00:00:00.0000000Z</P>");
    let beyond = 2_650_467_744_000_000_000u64.to_le_bytes();
    assert_eq!(number(&with_value(0x11, &beyond), 65_536), 11);
}

#[test]
fn sizes_28_and_27() {
    let chunk = chunk_with(512, &record(1, &[]));
    assert_eq!(whole_record(&chunk, 512), Some(28));
    assert_eq!(number(&chunk, 65_536), 8);
    let mut chunk = vec![0; 65_536];
    frame(&mut chunk, 512, 27);
    assert_eq!(whole_record(&chunk, 512), None);
    assert_eq!(number(&chunk, 65_536), 7);
}

#[test]
fn pointer_511() {
    let mut chunk = chunk_with(512, &first_record());
    put_u32(&mut chunk, 546, 511);
    assert_eq!(text(&chunk, 65_536), Err(Refusal { number: 9, place: 546 }));
}

#[test]
fn value_counts() {
    let with_count = |count: usize| {
        let values: Vec<Value> = (0..count).map(|_| plain(0x00, [])).collect();
        chunk_of(&body(|w| w.instance(|w| w.open("P", |_| ()), &values)))
    };
    assert_eq!(text(&with_count(256), 65_536).unwrap(), "<P></P>");
    assert_eq!(number(&with_count(257), 65_536), 12);
}

#[test]
fn empty_searches() {
    assert_eq!(search_chunk(&vec![0; 65_536], 0), Ok(vec![]));
    assert_eq!(search_bytes(&[], 0), Ok(vec![]));
}
