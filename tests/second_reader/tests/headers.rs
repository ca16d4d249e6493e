//! The checksum and the checks of file headers and chunks, number by number.

mod common;

use common::*;
use log_writer::*;
use second_reader::checksum::crc32;
use second_reader::header::{check_chunk, check_file_header, free_space_offset};

#[test]
fn checksum() {
    assert_eq!(crc32(&[b"123456789"]), 0xCBF4_3926);
    assert_eq!(crc32(&[b"1234", b"", b"56789"]), 0xCBF4_3926);
    assert_eq!(crc32(&[]), 0);
}

#[test]
fn file_header_length() {
    assert_eq!(check_file_header(&sound_file_header()), 0);
    assert_eq!(check_file_header(&[]), 1);
    assert_eq!(check_file_header(&sound_file_header()[..4_095]), 1);
    assert_eq!(check_file_header(&[sound_file_header(), vec![0]].concat()), 1);
}

/// The header with one byte changed, without and with a checksum made anew.
fn changed_header(at: usize) -> (u32, u32) {
    let mut header = sound_file_header();
    header[at] ^= 1;
    let without = check_file_header(&header);
    seal_file_header(&mut header);
    (without, check_file_header(&header))
}

#[test]
fn file_header_fields() {
    for at in 0..8 {
        assert_eq!(changed_header(at), (2, 2));
    }
    for at in [0x24, 0x25, 0x26, 0x27] {
        assert_eq!(changed_header(at), (3, 3));
    }
    for at in [0x20, 0x21, 0x22, 0x23, 0x28, 0x29] {
        assert_eq!(changed_header(at), (4, 4));
    }
    for at in [8, 0x1f, 0x2a, 0x77] {
        assert_eq!(changed_header(at), (5, 0));
    }
    // Flags, and all beyond the checksum, are covered by no sum.
    for at in [0x78, 0x7b, 0x80, 4_095] {
        assert_eq!(changed_header(at), (0, 0));
    }
}

#[test]
fn version_is_tested_before_the_sizes() {
    let mut header = sound_file_header();
    header[0x20] = 0;
    header[0x24] = 2;
    assert_eq!(check_file_header(&header), 3);
}

fn sound_chunk() -> Vec<u8> {
    let mut chunk = chunk_with(512, &record(1, &[7; 100]));
    seal_chunk(&mut chunk, 640);
    chunk
}

#[test]
fn chunk_length_and_free_space() {
    assert_eq!(check_chunk(&sound_chunk()), 0);
    assert_eq!(check_chunk(&sound_chunk()[1..]), 1);
    assert_eq!(check_chunk(&[]), 1);
    for (free, number) in [(0, 4), (511, 4), (512, 0), (65_536, 0), (65_537, 4), (u32::MAX, 4)] {
        let mut chunk = sound_chunk();
        put_u32(&mut chunk, 48, free);
        if number == 0 {
            seal_sums(&mut chunk);
        }
        assert_eq!(check_chunk(&chunk), number);
    }
}

#[test]
fn the_free_space_offset_of_any_chunk() {
    assert_eq!(free_space_offset(&sound_chunk()), Ok(640));
    assert_eq!(free_space_offset(&[0xff; 65_536]), Ok(4_294_967_295));
    let mut chunk = vec![0xff; 65_536];
    put(&mut chunk, 48, &[1, 2, 3, 4]);
    assert_eq!(free_space_offset(&chunk), Ok(0x0403_0201));
    for length in [0, 52, 65_535, 65_537] {
        assert_eq!(free_space_offset(&vec![0; length]), Err(1));
    }
}

#[test]
fn chunk_fields_and_sums() {
    let changed = |at: usize| {
        let mut chunk = sound_chunk();
        chunk[at] ^= 0x80;
        check_chunk(&chunk)
    };
    for at in 0..8 {
        assert_eq!(changed(at), 2);
    }
    for at in 40..44 {
        assert_eq!(changed(at), 4);
    }
    // The data checksum itself is covered by the header's sum.
    for at in [8, 39, 44, 52, 55, 119, 124, 127, 128, 511] {
        assert_eq!(changed(at), 5);
    }
    for at in [120, 123, 640, 65_535] {
        assert_eq!(changed(at), 0);
    }
    for at in [512, 639] {
        assert_eq!(changed(at), 6);
    }
}
