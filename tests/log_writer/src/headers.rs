//! Headers that are sound but for their checksums: what those are is left to the
//! tests, since no CRC-32 stands here.

use crate::{put, put_u32, HEADER};

pub fn file_header() -> Vec<u8> {
    let mut header = vec![0; HEADER];
    put(&mut header, 0, b"ElfFile\0");
    put_u32(&mut header, 0x20, 128);
    put(&mut header, 0x24, &[1, 0, 3, 0, 0, 0x10]);
    header
}

/// The header's fixed fields, and that the free space begins at `free`.
pub fn put_chunk_header(chunk: &mut [u8], free: usize) {
    put(chunk, 0, b"ElfChnk\0");
    put_u32(chunk, 40, 128);
    put_u32(chunk, 48, free as u32);
}
