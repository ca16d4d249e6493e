//! Records and chunks around written binary XML.

use crate::{put, put_u32, Writer, CHUNK, DATA, MAGIC};

/// Where the binary XML of a chunk's first record begins.
pub const BODY: usize = DATA + 24;

/// A record with the given number and binary XML.
pub fn record(number: u64, body: &[u8]) -> Vec<u8> {
    let size = (body.len() as u32 + 28).to_le_bytes();
    let time = [0; 8];
    [&MAGIC, &size[..], &number.to_le_bytes(), &time, body, &size].concat()
}

/// The magic and size of a record at `at`, and its second size where that
/// lies in the bytes.
pub fn frame(bytes: &mut [u8], at: usize, size: usize) {
    put(bytes, at, &MAGIC);
    put_u32(bytes, at + 4, size as u32);
    if size >= 4 && at + size <= bytes.len() {
        put_u32(bytes, at + size - 4, size as u32);
    }
}

/// An empty chunk with the given bytes at the given offset.
pub fn chunk_with(offset: usize, bytes: &[u8]) -> Vec<u8> {
    let mut chunk = vec![0; CHUNK];
    put(&mut chunk, offset, bytes);
    chunk
}

/// A chunk whose one record, its first, holds what `inside` writes after the
/// stream header.
pub fn one_record(inside: impl FnOnce(&mut Writer)) -> Vec<u8> {
    record_at(DATA, inside)
}

/// The same with the record at another offset.
pub fn record_at(offset: usize, inside: impl FnOnce(&mut Writer)) -> Vec<u8> {
    let mut writer = Writer::at(offset + 24);
    writer.stream_header();
    inside(&mut writer);
    chunk_with(offset, &record(1, &writer.bytes))
}

/// Writes into a chunk at an offset, as a thing pointed to.
pub fn place(chunk: &mut [u8], offset: usize, inside: impl FnOnce(&mut Writer)) {
    let mut writer = Writer::at(offset);
    inside(&mut writer);
    put(chunk, offset, &writer.bytes);
}
