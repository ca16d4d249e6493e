//! What stands at an offset of an EVT log.

use log_writer::evt::{file_with, moved, put_round, record as record_of, trailer, Fields};
use log_writer::{put, put_u32};
use second_reader::evt::{header, record, text, At};

const CLEAN: u32 = 0;

/// A record of so many bytes without strings: number 7, generated at 8, written at 9.
fn sized(length: usize) -> Vec<u8> {
    let fields = Fields { number: 7, generated: 8, written: 9, ..Fields::default() };
    record_of(&fields, &vec![0xee; length - 60])
}

/// A log of so many bytes behind its header, and a record at an offset.
fn with_record(behind: usize, offset: usize, length: usize) -> Vec<u8> {
    let mut file = file_with(CLEAN, &vec![0; behind]);
    put_round(&mut file, offset, &sized(length));
    file
}

fn at(length: u64, next: u64) -> Result<At, u32> {
    Ok(At { length, number: 7, written_time: 9, next })
}

/// The record's text is there just if the record is.
#[track_caller]
fn asked(file: &[u8], offset: u64, due: Result<At, u32>) {
    assert_eq!(record(file, offset), due);
    assert_eq!(text(file, offset, 99), due.map(|_| b"7 9 0 0 0".to_vec()));
}

#[test]
fn the_fields() {
    let numbers: Vec<u8> = (0x10..0x40).collect();
    let mut file = with_record(100, 50, 60);
    // All fixed fields from the number on but NumStrings.
    put(&mut file, 50 + 8, &numbers);
    put(&mut file, 50 + 26, &[0, 0]);
    let due = At { length: 60, number: 0x1312_1110, written_time: 0x1b1a_1918, next: 110 };
    assert_eq!(record(&file, 50), Ok(due));
    put(&mut file, 50 + 8, &[0xff; 18]);
    put(&mut file, 50 + 28, &[0xff; 28]);
    let due = At { length: 60, number: 0xffff_ffff, written_time: 0xffff_ffff, next: 110 };
    assert_eq!(record(&file, 50), Ok(due));
}

#[test]
fn lengths_at_the_bounds() {
    for length in 0..60usize {
        let mut file = with_record(100, 60, 60);
        put_u32(&mut file, 60, length as u32);
        put_u32(&mut file, 60 + length.saturating_sub(4), length as u32);
        put(&mut file, 64, b"LfLe");
        asked(&file, 60, Err(18));
    }
    for length in 60..=100 {
        let file = with_record(100, 48, length);
        asked(&file, 48, at(length as u64, if length == 100 { 48 } else { 48 + length as u64 }));
    }
    asked(&file_with(CLEAN, &sized(101)[..100]), 48, Err(18));
    // A second length where the file ends, and a first that says one byte more.
    let mut file = with_record(100, 48, 100);
    put_u32(&mut file, 48, 101);
    asked(&file, 48, Err(18));
}

/// With 59 bytes behind the header there is room for no record; with 60 for one.
#[test]
fn files_of_one_record() {
    for offset in 48..107 {
        asked(&moved(&file_with(CLEAN, &sized(60)[..59]), offset - 48), offset as u64, Err(18));
    }
    for offset in 48..108 {
        let file = with_record(60, offset, 60);
        assert_eq!(file.len(), 108);
        asked(&file, offset as u64, at(60, offset as u64));
    }
}

/// A record may be as long as all that stands behind the header, and begin anywhere.
#[test]
fn the_longest_record() {
    for offset in 48..48 + 255 {
        asked(&with_record(255, offset, 255), offset as u64, at(255, offset as u64));
    }
    // Both lengths say 256, since the last byte of the second is the first of the first.
    let mut file = file_with(CLEAN, &[0; 255]);
    put(&mut file, 48, b"\0\x01\0\0LfLe\x07\0\0\0\x08\0\0\0\x09\0\0\0");
    put(&mut file, 300, &[0, 1, 0]);
    for by in 0..255 {
        asked(&moved(&file, by), 48 + by as u64, Err(18));
    }
    // With one byte more behind the header it is a record.
    asked(&[&file[..], &[0]].concat(), 48, at(256, 48));
}

#[test]
fn the_longest_file() {
    let behind = 16_777_216 - 48;
    let mut file = file_with(CLEAN, &vec![0; behind]);
    let length = behind as u32;
    put_u32(&mut file, 100, length);
    put(&mut file, 104, b"LfLe\x07\0\0\0\x08\0\0\0\x09\0\0\0");
    put_u32(&mut file, 96, length);
    asked(&file, 100, at(behind as u64, 100));
    put_u32(&mut file, 100, length + 1);
    put_u32(&mut file, 97, length + 1);
    asked(&file, 100, Err(18));
    file.push(0);
    asked(&file, 100, Err(1));
}

/// A record that goes on at 48, cut after each of its bytes.
#[test]
fn records_cut_by_the_end() {
    let last = 48 + 200;
    for before in 1..80 {
        let offset = last - before;
        let file = with_record(200, offset, 80);
        let next = 48 + 80 - before;
        asked(&file, offset as u64, at(80, next as u64));
        // The byte after the record's is not looked at.
        let mut other = file.clone();
        put_round(&mut other, next, &[0xff]);
        asked(&other, offset as u64, at(80, next as u64));
    }
    asked(&with_record(200, last - 80, 80), last as u64 - 80, at(80, 48));
    asked(&with_record(200, last - 81, 80), last as u64 - 81, at(80, last as u64 - 1));
}

#[test]
fn every_bit_of_magic_and_lengths_counts() {
    for offset in [48, 100, 220, 244, 247] {
        for bit in (0..64).chain(8 * 76..8 * 80) {
            let mut bytes = sized(80);
            bytes[bit / 8] ^= 1 << (bit % 8);
            let mut file = file_with(CLEAN, &[0; 200]);
            put_round(&mut file, offset, &bytes);
            asked(&file, offset as u64, Err(18));
        }
    }
}

#[test]
fn offsets_at_no_record() {
    let file = with_record(100, 48, 60);
    asked(&file, 48, at(60, 108));
    let far = [1 << 16, 1 << 31, 1 << 32, 1 << 63].map(|far: u64| far + 48);
    let outside = [148, 149, 148 + 48, 248, u64::MAX, u64::MAX - 51, u64::MAX - 99];
    for offset in (0..48).chain(49..148).chain(far).chain(outside) {
        asked(&file, offset, Err(18));
    }
}

/// Bytes of the header that would be a record's first ones.
#[test]
fn offsets_below_48() {
    for offset in [16, 20, 24, 28, 32, 36] {
        let mut file = file_with(CLEAN, &[0; 200]);
        let length = 100u32;
        put(&mut file, offset, &length.to_le_bytes());
        put(&mut file, offset + 4, b"LfLe");
        put_u32(&mut file, offset + 96, length);
        assert_eq!(header(&file, 48), Ok(file[..48].to_vec()));
        assert_eq!(record(&file, offset as u64), Err(18));
        assert_eq!(text(&file, offset as u64, 99), Err(18));
    }
    // Another copy of it 48 bytes further is a record.
    let mut file = with_record(200, 64, 100);
    let copy = file[64..96].to_vec();
    put(&mut file, 16, &copy[..28]);
    asked(&file, 64, at(100, 164));
    assert_eq!(record(&file, 16), Err(18));
}

/// A record inside another, and one over another's end.
#[test]
fn records_that_overlap() {
    let mut file = with_record(300, 60, 200);
    put(&mut file, 130, &sized(60));
    put(&mut file, 200, &sized(90));
    put_u32(&mut file, 256, 200);
    asked(&file, 60, at(200, 260));
    asked(&file, 130, at(60, 190));
    asked(&file, 200, at(90, 290));
}

/// The header's offsets and the trailer do not say where records stand.
#[test]
fn the_header_does_not_decide() {
    let mut file = with_record(200, 120, 60);
    put(&mut file, 16, &[0xff; 16]);
    asked(&file, 120, at(60, 180));
    put_u32(&mut file, 36, 1);
    asked(&file, 120, Err(17));
    asked(&file, 47, Err(17));
    put(&mut file, 190, &trailer([0xffff_ffff; 4]));
    asked(&file, 120, at(60, 180));
    asked(&file, 47, Err(18));
    asked(&file, 190, Err(18));
    put(&mut file, 50, &trailer([0xffff_ffff; 4]));
    asked(&file, 120, Err(17));
}

/// The trailer's own record has no magic, and words 0x27 are none.
#[test]
fn what_is_no_record() {
    let behind = [&[0x28, 0, 0, 0][..], &trailer([48, 48, 1, 0]), &[0x28, 0, 0, 0]].concat();
    let fill = [0x27, 0, 0, 0].repeat(20);
    let file = file_with(CLEAN, &[behind, fill].concat());
    for offset in 48..file.len() as u64 {
        asked(&file, offset, Err(18));
    }
}
