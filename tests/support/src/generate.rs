//! Sound file headers, chunks and records, and bytes rich in beginnings of
//! records. What a record's binary XML holds does not matter to these calls.

use log_writer::*;
use second_reader::checksum::crc32;

/// A record of `size` bytes, at least 8, with both copies of its size.
pub fn random_record(random: &mut Random, size: usize) -> Vec<u8> {
    let mut bytes = random.bytes(size);
    frame(&mut bytes, 0, size);
    bytes
}

/// Records of random sizes that fill `length` bytes up to some free space.
fn records(random: &mut Random, length: usize) -> Vec<u8> {
    let largest = random.pick(&[40, 200, 900, 20_000]);
    let wanted = random.below(length + 1);
    let mut bytes = Vec::new();
    loop {
        let size = random.between(28, largest);
        if bytes.len() + size > length || bytes.len() >= wanted {
            return bytes;
        }
        bytes.extend(random_record(random, size));
    }
}

/// Where the records of a chunk begin, as its sizes say, for a chunk in which
/// nothing was damaged yet.
pub fn record_starts(chunk: &[u8]) -> Vec<usize> {
    let free = get_u32(chunk, 48) as usize;
    let mut starts = Vec::new();
    let mut at = DATA;
    while at < free {
        starts.push(at);
        at += get_u32(chunk, at + 4) as usize;
    }
    starts
}

/// Both checksums of a chunk, for the free-space offset it states; one that
/// leaves the chunk gets the sum of all data.
pub fn seal_chunk(chunk: &mut [u8]) {
    let free = (get_u32(chunk, 48) as usize).clamp(DATA, CHUNK);
    let data_sum = crc32(&[&chunk[DATA..free]]);
    put_u32(chunk, 52, data_sum);
    seal_chunk_header(chunk);
}

pub fn seal_chunk_header(chunk: &mut [u8]) {
    let header_sum = crc32(&[&chunk[..120], &chunk[128..512]]);
    put_u32(chunk, 124, header_sum);
}

pub fn seal_file_header(header: &mut [u8]) {
    let sum = crc32(&[&header[..120]]);
    put_u32(header, 0x7c, sum);
}

/// A chunk with the given data, sealed.
pub fn chunk_of(random: &mut Random, data: &[u8]) -> Vec<u8> {
    let mut chunk = vec![0; CHUNK];
    put_chunk_header(&mut chunk, DATA + data.len());
    put(&mut chunk, 8, &random.bytes(32));
    put(&mut chunk, 128, &random.bytes(384));
    put(&mut chunk, DATA, data);
    seal_chunk(&mut chunk);
    chunk
}

pub fn sound_chunk(random: &mut Random) -> Vec<u8> {
    let data = records(random, CHUNK - DATA);
    chunk_of(random, &data)
}

/// A sound chunk with little data, whose checksums cost little.
pub fn small_chunk(random: &mut Random) -> Vec<u8> {
    let data = random_record(random, 60);
    chunk_of(random, &data)
}

pub fn sound_file_header(random: &mut Random) -> Vec<u8> {
    let mut header = file_header();
    put(&mut header, 8, &random.bytes(24));
    put(&mut header, 0x2a, &random.bytes(2));
    put(&mut header, 0x78, &random.bytes(4));
    seal_file_header(&mut header);
    header
}

/// Bytes made of magics, small sizes and zeros, so that records, overlapping
/// ones and near misses stand everywhere.
pub fn dense_bytes(random: &mut Random, length: usize) -> Vec<u8> {
    let mut bytes = Vec::new();
    while bytes.len() < length {
        let size = random.pick(&[27u32, 28, 28, 29, 32, 36, 40, 60, 256]);
        let whole_word = random.pick(&[size, size, 0, 0x2a2a, 0x2a]);
        match random.below(8) {
            0..=2 => bytes.extend([&MAGIC[..], &size.to_le_bytes()].concat()),
            3..=5 => bytes.extend(whole_word.to_le_bytes()),
            6 => bytes.extend(random_record(random, size as usize)),
            _ => bytes.push(random.pick(&[0, 0x2a, 28])),
        }
    }
    bytes.truncate(length);
    bytes
}
