//! What several tests need: the bodies and chunks that they ask for, sound
//! headers, streams, and the samples.
#![allow(dead_code)]

use log_writer::*;
use second_reader::binxml::record_text;
use second_reader::checksum::crc32;
use second_reader::stream::{close, feed, Listed, Stream};

pub fn writer_at(start: usize) -> Writer {
    Writer::filled(start, Filling::Usual)
}

/// The binary XML of a chunk's first record: the stream header, and what
/// `inside` writes.
pub fn body(inside: impl FnOnce(&mut Writer)) -> Writer {
    let mut writer = writer_at(BODY);
    writer.stream_header();
    inside(&mut writer);
    writer
}

/// A chunk whose one record, its first, holds such a body.
pub fn chunk_of(body: &Writer) -> Vec<u8> {
    chunk_with(DATA, &record(1, &body.bytes))
}

/// Number and place of the refusal of a chunk's first record.
pub fn refusal(chunk: &[u8]) -> (u32, u64) {
    let refusal = record_text(chunk, 512, 65_536).expect_err("a refused record");
    (refusal.number, refusal.place)
}

/// The text of a chunk's first record.
pub fn text(chunk: &[u8]) -> String {
    String::from_utf8(record_text(chunk, 512, 65_536).expect("a sound record")).unwrap()
}

pub fn seal_file_header(header: &mut [u8]) {
    let sum = crc32(&[&header[0..120]]);
    put_u32(header, 0x7c, sum);
}

pub fn sound_file_header() -> Vec<u8> {
    let mut header = file_header();
    seal_file_header(&mut header);
    header
}

/// Gives a chunk a sound header for data up to `free`.
pub fn seal_chunk(chunk: &mut [u8], free: usize) {
    put_chunk_header(chunk, free);
    seal_sums(chunk);
}

/// Both checksums for the header fields as they stand.
pub fn seal_sums(chunk: &mut [u8]) {
    let free = get_u32(chunk, 48) as usize;
    let data_sum = crc32(&[&chunk[512..free]]);
    put_u32(chunk, 52, data_sum);
    let header_sum = crc32(&[&chunk[0..120], &chunk[128..512]]);
    put_u32(chunk, 124, header_sum);
}

/// A record of the given size, with both copies of it.
pub fn sized(size: usize) -> Vec<u8> {
    let mut bytes = vec![0x11; size];
    frame(&mut bytes, 0, size);
    bytes
}

/// Feeds the packets to a store of zeros, and closes. Answers what was listed
/// by each call.
pub fn fed(packets: &[&[u8]]) -> Vec<Vec<Listed>> {
    let mut store = vec![0; STORE];
    let mut lists = Vec::new();
    for packet in packets {
        let (listed, after) = feed(&store, packet, 9_999).unwrap();
        lists.push(listed);
        store = store_with(after.total, after.held.len() % 400, &after.held);
    }
    let (listed, after) = close(&store, 9_999).unwrap();
    let total = packets.iter().map(|packet| packet.len() as u64).sum();
    assert_eq!(after, Stream { total, closed: true, held: Vec::new() });
    lists.push(listed);
    lists
}

/// A file of the samples folder.
pub fn read_sample(name: &str) -> Vec<u8> {
    let folder = concat!(env!("CARGO_MANIFEST_DIR"), "/../../samples");
    std::fs::read(format!("{folder}/{name}")).unwrap()
}
