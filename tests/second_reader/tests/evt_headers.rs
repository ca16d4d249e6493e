//! The header of an EVT log: what is refused, and what is handed back.

use log_writer::evt::{after, file_with, header as header_of, moved, put_round, trailer, HEADER};
use log_writer::put;
use second_reader::evt::{header, record, text};

/// Room for a header.
const ROOM: usize = 48;
const CLEAN: u32 = 0;
const DIRTY: u32 = 1;
const NUMBERS: [u32; 4] = [0x0102_0304, 0x0506_0708, 0x090a_0b0c, 0x0d0e_0f10];
/// Their bytes.
const LITTLE_ENDIAN: [u8; 16] = [4, 3, 2, 1, 8, 7, 6, 5, 12, 11, 10, 9, 16, 15, 14, 13];

/// The header with the trailer's numbers, and with the lowest flag cleared.
fn repaired(file: &[u8]) -> Result<Vec<u8>, u32> {
    let flags = [file[36] & 0xfe];
    Ok([&file[..16], &LITTLE_ENDIAN, &file[32..36], &flags, &file[37..48]].concat())
}

fn as_read(file: &[u8]) -> Result<Vec<u8>, u32> {
    Ok(file[..48].to_vec())
}

/// A dirty log of so many zeros behind its header, and a trailer at an offset.
fn with_trailer(behind: usize, offset: usize) -> Vec<u8> {
    let mut file = file_with(DIRTY, &vec![0; behind]);
    put_round(&mut file, offset, &trailer(NUMBERS));
    file
}

/// Figures 3 and 5 of source document 002. The figure's tool clears all flags; by
/// request Five only the lowest is cleared.
#[test]
fn the_published_repair() {
    let mut file = vec![0; 0x8_0000];
    let read = *b"\x30\0\0\0LfLe\x01\0\0\0\x01\0\0\0\
        \x6c\x18\0\0\xbc\x17\0\0\xfc\x4f\0\0\x6e\x45\0\0\
        \0\0\x08\0\x0b\0\0\0\x80\x3a\x09\0\x30\0\0\0";
    put(&mut file, 0, &read);
    assert_eq!(header(&file, ROOM), Err(17));
    let end = *b"\x28\0\0\0\x11\x11\x11\x11\x22\x22\x22\x22\x33\x33\x33\x33\x44\x44\x44\x44\
        \x58\x3b\0\0\x14\x3b\0\0\x2a\x50\0\0\x9b\x45\0\0\x28\0\0\0";
    put(&mut file, 0x3b14, &end);
    let due = *b"\x30\0\0\0LfLe\x01\0\0\0\x01\0\0\0\
        \x58\x3b\0\0\x14\x3b\0\0\x2a\x50\0\0\x9b\x45\0\0\
        \0\0\x08\0\x0a\0\0\0\x80\x3a\x09\0\x30\0\0\0";
    assert_eq!(header(&file, ROOM), Ok(due.to_vec()));
}

#[test]
fn lengths_of_files() {
    let clean = |length: usize| {
        let mut file = file_with(CLEAN, &[]);
        file.resize(length, 0);
        file
    };
    for length in [0, 1, 16, 47, 16_777_217] {
        let mut file = clean(length);
        assert_eq!(header(&file, ROOM), Err(1), "{length}");
        assert_eq!((record(&file, 48), text(&file, 48, 99)), (Err(1), Err(1)), "{length}");
        // Before the header is looked at.
        file.fill(0);
        assert_eq!(header(&file, ROOM), Err(1), "{length}");
    }
    for length in [48, 49, 79, 80, 107, 108, 16_777_216] {
        let mut file = clean(length);
        assert_eq!(header(&file, ROOM), as_read(&file), "{length}");
        assert_eq!((record(&file, 48), text(&file, 48, 99)), (Err(18), Err(18)), "{length}");
        file[0] = 0;
        assert_eq!(header(&file, ROOM), Err(2), "{length}");
    }
}

#[test]
fn the_longest_file_is_repaired() {
    let file = with_trailer(16_777_216 - HEADER, 16_777_199);
    assert_eq!(header(&file, ROOM), repaired(&file));
    let file = with_trailer(16_777_217 - HEADER, 16_777_199);
    assert_eq!(header(&file, ROOM), Err(1));
}

/// Each bit of both lengths, of the magic and of the ones counts, and no other one.
#[test]
fn bits_of_a_clean_header() {
    for bit in 0..8 * HEADER {
        let mut file = file_with(CLEAN, &[0; 100]);
        file[bit / 8] ^= 1 << (bit % 8);
        let due = match bit / 8 {
            0..=15 | 44..=47 => Err(2),
            36 if bit % 8 == 0 => Err(17),
            _ => as_read(&file),
        };
        assert_eq!(header(&file, ROOM), due, "bit {bit}");
        let refused = due.err().unwrap_or(18);
        assert_eq!(record(&file, 48), Err(refused), "bit {bit}");
        assert_eq!(text(&file, 48, 99), Err(refused), "bit {bit}");
    }
}

#[test]
fn bits_of_a_dirty_header() {
    for bit in 0..8 * HEADER {
        let mut file = with_trailer(100, 77);
        file[bit / 8] ^= 1 << (bit % 8);
        let due = match bit / 8 {
            0..=15 | 44..=47 => Err(2),
            36 if bit % 8 == 0 => as_read(&file),
            _ => repaired(&file),
        };
        assert_eq!(header(&file, ROOM), due, "bit {bit}");
    }
}

/// Sizes, offsets and flags that are not those of the file.
#[test]
fn other_fields_are_handed_back() {
    let any = header_of([u32::MAX; 4], 7, 0xffff_fffe);
    assert_eq!(header(&any, ROOM), Ok(any.clone()));
    let dirty = [&header_of([0; 4], u32::MAX, 0xffff_ffff)[..], &trailer(NUMBERS)].concat();
    let due = header_of(NUMBERS, u32::MAX, 0xffff_fffe);
    assert_eq!(header(&dirty, ROOM), Ok(due));
}

#[test]
fn a_wrong_header_comes_before_the_trailer() {
    for at in [0, 4, 8, 12, 44] {
        let mut file = file_with(DIRTY, &[0; 100]);
        assert_eq!(header(&file, ROOM), Err(17));
        file[at] ^= 2;
        assert_eq!(header(&file, ROOM), Err(2), "{at}");
    }
}

/// 32 bytes have to stand behind the header, even where the marks alone would fit.
#[test]
fn files_too_short_for_a_trailer() {
    for behind in 0..32 {
        let mut file = file_with(DIRTY, &trailer(NUMBERS)[..behind]);
        assert_eq!(header(&file, ROOM), Err(17), "{behind}");
        assert_eq!((record(&file, 48), text(&file, 48, 99)), (Err(17), Err(17)), "{behind}");
        file = moved(&file, 3);
        assert_eq!(header(&file, ROOM), Err(17), "{behind}");
    }
    let file = file_with(DIRTY, &trailer(NUMBERS));
    assert_eq!(file.len(), 80);
    assert_eq!(header(&file, ROOM), repaired(&file));
}

/// From 48 to the last byte; from the last 31 on the trailer goes on at 48.
#[test]
fn trailers_at_every_offset() {
    for behind in [32, 33, 60, 100] {
        for offset in 48..48 + behind {
            let mut file = with_trailer(behind, offset);
            assert_eq!(header(&file, ROOM), repaired(&file), "{offset} of {behind}");
            let last_mark = after(file.len(), offset, 15);
            file[last_mark] = 0x45;
            assert_eq!(header(&file, ROOM), Err(17), "{offset} of {behind}");
        }
    }
}

#[test]
fn every_byte_of_the_marks_counts() {
    for at in 0..32 {
        let mut file = with_trailer(40, 52);
        file[52 + at] ^= 0x80;
        let mut due = repaired(&file).unwrap();
        if at >= 16 {
            due[at] ^= 0x80;
        }
        assert_eq!(header(&file, ROOM), if at < 16 { Err(17) } else { Ok(due) }, "{at}");
    }
    let mut file = with_trailer(40, 52);
    put(&mut file, 52, &[[0x44; 4], [0x33; 4], [0x22; 4], [0x11; 4]].concat());
    assert_eq!(header(&file, ROOM), Err(17));
}

/// The lengths around the trailer are not looked at.
#[test]
fn what_stands_around_a_trailer() {
    for around in [0, 0x28, 0x11, 0x44, 0xff] {
        let mut file = file_with(DIRTY, &[around; 70]);
        put(&mut file, 60, &trailer(NUMBERS));
        assert_eq!(header(&file, ROOM), repaired(&file), "{around}");
    }
}

/// The second one may begin as soon as the first one's marks end.
#[test]
fn two_trailers() {
    for apart in 16..=84 {
        let mut file = with_trailer(100, 90);
        let second = 48 + (90 - 48 + apart) % 100;
        put_round(&mut file, second, &trailer(NUMBERS)[..16]);
        assert_eq!(header(&file, ROOM), Err(17), "{apart} apart");
        // In a clean log they are not looked for.
        file[36] = 0;
        assert_eq!(header(&file, ROOM), as_read(&file), "{apart} apart");
    }
    let equal = trailer(NUMBERS).repeat(2);
    assert_eq!(header(&file_with(DIRTY, &equal), ROOM), Err(17));
    let three = trailer(NUMBERS).repeat(3);
    assert_eq!(header(&file_with(DIRTY, &three), ROOM), Err(17));
    // The numbers of a trailer that fills the file are the marks: a second trailer,
    // whose numbers are the first one's marks.
    let marks = trailer(NUMBERS)[..16].repeat(2);
    assert_eq!(header(&file_with(DIRTY, &marks), ROOM), Err(17));
}

/// The header's own bytes are no trailer's.
#[test]
fn marks_in_the_header() {
    let marks = trailer(NUMBERS)[..16].to_vec();
    let mut none = file_with(DIRTY, &[0; 100]);
    put(&mut none, 16, &marks);
    assert_eq!(header(&none, ROOM), Err(17));
    let mut one = with_trailer(100, 140);
    put(&mut one, 16, &marks);
    assert_eq!(header(&one, ROOM), repaired(&one));
    // After the last byte comes byte 48, not the header: these marks end nowhere.
    let mut file = file_with(DIRTY, &[0; 100]);
    put(&mut file, 140, &marks[..8]);
    put(&mut file, 0, &header_of(NUMBERS, 148, DIRTY));
    assert_eq!(header(&file, ROOM), Err(17));
    put(&mut file, 48, &marks[8..]);
    put(&mut file, 56, &LITTLE_ENDIAN);
    assert_eq!(header(&file, ROOM), repaired(&file));
}

#[test]
fn the_room_comes_last() {
    let clean = file_with(CLEAN, &[0; 100]);
    let dirty = with_trailer(100, 48);
    for (file, due) in [(&clean, as_read(&clean)), (&dirty, repaired(&dirty))] {
        for room in [48, 49, 1_000] {
            assert_eq!(header(file, room), due);
        }
        for room in [0, 1, 47] {
            assert_eq!(header(file, room), Err(13));
        }
    }
    assert_eq!(header(&file_with(DIRTY, &[0; 100]), 0), Err(17));
    assert_eq!(header(&[0; 48], 0), Err(2));
    assert_eq!(header(&[0; 47], 0), Err(1));
}
