//! Damage to sound inputs: bits, tails, sizes, overlaps and header fields.

use crate::generate::*;
use log_writer::{frame, get_u32, put, put_u32, Random, HEADER};

pub fn flip_bits(random: &mut Random, bytes: &mut [u8], times: usize) {
    if bytes.is_empty() {
        return;
    }
    for _ in 0..times {
        let at = random.below(bytes.len());
        bytes[at] ^= 1 << random.below(8);
    }
}

/// Zeros from a random place on.
pub fn zero_tail(random: &mut Random, bytes: &mut [u8]) {
    let from = random.below(bytes.len());
    bytes[from..].fill(0);
}

/// Gives some records a second size that is not the first.
pub fn wrong_second_sizes(random: &mut Random, chunk: &mut [u8]) {
    for start in record_starts(chunk) {
        if random.once_in(3) {
            let size = get_u32(chunk, start + 4);
            let wrong = random.pick(&[size + 1, size - 1, size ^ 0x100, 0, size << 8, !size]);
            put_u32(chunk, start + size as usize - 4, wrong);
        }
    }
}

/// Gives some records a first size that is not the second.
pub fn wrong_first_sizes(random: &mut Random, chunk: &mut [u8]) {
    for start in record_starts(chunk) {
        if random.once_in(3) {
            let size = get_u32(chunk, start + 4);
            let wrong = random.pick(&[size + 1, size - 1, 27, 65_024, 65_025, u32::MAX, 0, 4]);
            put_u32(chunk, start + 4, wrong);
        }
    }
}

/// Writes records over what stands at random places, one into another.
pub fn overlaps(random: &mut Random, bytes: &mut [u8]) {
    for _ in 0..random.between(1, 30) {
        let size = random.pick(&[28, 29, 40, 100, 1_000]);
        let at = random.below(bytes.len() - size);
        put(bytes, at, &random_record(random, size));
        // A second record from inside the first to beyond its end.
        let inner = at + random.between(8, size - 5);
        let reach = random.between(28, 300);
        if inner + reach <= bytes.len() {
            frame(bytes, inner, reach);
        }
    }
}

/// Sets one field of a chunk header to another number; the checksums are made
/// anew, or left as they were.
pub fn wrong_chunk_field(random: &mut Random, chunk: &mut [u8]) {
    match random.below(8) {
        0 => put(chunk, random.below(8), &[0xee]),
        1 => put_u32(chunk, 40, random.pick(&[0, 127, 129, 128 << 8, u32::MAX])),
        2 => put_u32(chunk, 48, random.pick(&[0, 511, 65_537, 1 << 16 | 1 << 31, u32::MAX])),
        3 => put_u32(chunk, 48, random.pick(&[512, 513, 65_535, 65_536])),
        4 => put_u32(chunk, 52, random.number() as u32),
        5 => put_u32(chunk, 124, random.number() as u32),
        6 => put_u32(chunk, 120, random.number() as u32),
        _ => put_u32(chunk, 44, random.number() as u32),
    }
    match random.below(3) {
        0 => seal_chunk(chunk),
        1 => seal_chunk_header(chunk),
        _ => (),
    }
}

/// The same for a file header.
pub fn wrong_file_field(random: &mut Random, header: &mut [u8]) {
    let byte = random.pick(&[0, 1, 2, 3, 4, 0x10, 0x80, 0xff]);
    match random.below(6) {
        0 => put(header, random.below(8), &[byte]),
        1 => put(header, random.between(0x24, 0x27), &[byte]),
        2 => put(header, random.between(0x20, 0x23), &[byte]),
        3 => put(header, random.between(0x28, 0x29), &[byte]),
        4 => put(header, random.between(0x7c, 0x7f), &[byte]),
        _ => put(header, random.below(HEADER), &[byte]),
    }
    if random.once_in(2) {
        seal_file_header(header);
    }
}

/// Makes each field wrong whose bit is set in `faults`: magic, minor version,
/// major version, header size, header block size, checksum. Which number is
/// answered then depends on the order of the tests.
pub fn wrong_file_fields(header: &mut [u8], faults: usize) {
    for (bit, at) in [0, 0x24, 0x26, 0x20, 0x28].into_iter().enumerate() {
        if faults >> bit & 1 == 1 {
            header[at] ^= 0x40;
        }
    }
    seal_file_header(header);
    if faults >> 5 & 1 == 1 {
        header[0x7c] ^= 0x40;
    }
}

/// The same for a chunk: magic, header size, free-space offset, data checksum,
/// header checksum.
pub fn wrong_chunk_fields(chunk: &mut [u8], faults: usize) {
    for (bit, at) in [0, 40, 51, 52].into_iter().enumerate() {
        if faults >> bit & 1 == 1 {
            chunk[at] ^= 0x40;
        }
    }
    seal_chunk_header(chunk);
    if faults >> 4 & 1 == 1 {
        chunk[124] ^= 0x40;
    }
}
