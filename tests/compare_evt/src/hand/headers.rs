//! Headers: lengths of files, fields, trailers and rooms.

use super::{header, ByHand, Due};
use log_writer::evt::{file_with, put_round};
use log_writer::put;

/// As the service writes it, of an empty log; the flags are 0.
const CLEAN: [u8; 48] = *b"\x30\0\0\0LfLe\x01\0\0\0\x01\0\0\0\
    \x30\0\0\0\x30\0\0\0\x01\0\0\0\0\0\0\0\0\0\x01\0\0\0\0\0\x80\x3a\x09\0\x30\0\0\0";
const TRAILER: [u8; 32] = *b"\x11\x11\x11\x11\x22\x22\x22\x22\x33\x33\x33\x33\x44\x44\x44\x44\
    \x01\x02\x03\x04\x05\x06\x07\x08\x09\x0a\x0b\x0c\x0d\x0e\x0f\x10";
/// The repaired one: the trailer's numbers, and all else as in a clean header.
const REPAIRED: [u8; 48] = *b"\x30\0\0\0LfLe\x01\0\0\0\x01\0\0\0\
    \x01\x02\x03\x04\x05\x06\x07\x08\x09\x0a\x0b\x0c\x0d\x0e\x0f\x10\
    \0\0\x01\0\0\0\0\0\x80\x3a\x09\0\x30\0\0\0";

pub fn all() -> Vec<ByHand> {
    [lengths(), fields(), flags(), places(), counts(), rooms()].into_iter().flatten().collect()
}

fn clean(behind: usize) -> Vec<u8> {
    [&CLEAN[..], &vec![0; behind]].concat()
}

fn dirty(behind: &[u8]) -> Vec<u8> {
    let mut file = [&CLEAN[..], behind].concat();
    file[36] = 1;
    file
}

/// A dirty log of so many bytes behind its header, with a trailer at an offset.
fn with_trailer(behind: usize, offset: usize) -> Vec<u8> {
    let mut file = dirty(&vec![0; behind]);
    put_round(&mut file, offset, &TRAILER);
    file
}

fn lengths() -> Vec<ByHand> {
    let read = || Ok(CLEAN.to_vec());
    let repaired = || Ok(REPAIRED.to_vec());
    vec![
        header("no bytes", Vec::new(), 48, Err(1)),
        header("47 bytes", CLEAN[..47].to_vec(), 48, Err(1)),
        header("48 bytes", CLEAN.to_vec(), 48, read()),
        header("49 bytes", clean(1), 48, read()),
        header("16,777,216 bytes", clean(16_777_168), 48, read()),
        header("16,777,217 bytes", clean(16_777_169), 48, Err(1)),
        header("47 bytes without a header", vec![0; 47], 48, Err(1)),
        header("48 bytes without a header", vec![0; 48], 48, Err(2)),
        header("48 dirty bytes", dirty(&[]), 48, Err(17)),
        header("64 dirty bytes, the last 16 marks", dirty(&TRAILER[..16]), 48, Err(17)),
        header("79 dirty bytes", dirty(&TRAILER[..31]), 48, Err(17)),
        header("80 dirty bytes", dirty(&TRAILER), 48, repaired()),
        header("16,777,216 dirty bytes", with_trailer(16_777_168, 48), 48, repaired()),
        header(
            "a trailer from the last byte on",
            with_trailer(16_777_168, 16_777_215),
            48,
            repaired(),
        ),
        header("16,777,217 dirty bytes", with_trailer(16_777_169, 48), 48, Err(1)),
    ]
}

/// Each byte of lengths, magic and ones, in a dirty log without a trailer too.
fn fields() -> Vec<ByHand> {
    let fixed = (0..16).chain(44..48);
    let wrong = |mut file: Vec<u8>, at: usize| {
        file[at] ^= 0x20;
        header("a wrong fixed byte", file, 48, Err(2))
    };
    fixed.flat_map(|at| [wrong(clean(100), at), wrong(dirty(&[0; 100]), at)]).collect()
}

/// The lowest flag is cleared and no other one; the others say nothing.
fn flags() -> Vec<ByHand> {
    let flagged = |name, flags: [u8; 4], due: [u8; 4]| {
        let mut file = with_trailer(100, 90);
        put(&mut file, 36, &flags);
        let mut answer = if flags[0] & 1 == 1 { REPAIRED } else { CLEAN };
        put(&mut answer, 36, &due);
        header(name, file, 48, Ok(answer.to_vec()))
    };
    let mut odd = file_with(0, &[0; 100]);
    put(&mut odd, 16, &[0xff; 20]);
    put(&mut odd, 40, &[0xff; 4]);
    let read = odd[..48].to_vec();
    vec![
        flagged("no flag", [0; 4], [0; 4]),
        flagged("the flag dirty", [1, 0, 0, 0], [0; 4]),
        flagged("the flag wrapped", [2, 0, 0, 0], [2, 0, 0, 0]),
        flagged("dirty, wrapped and archived", [11, 0, 0, 0], [10, 0, 0, 0]),
        flagged("a bit of another byte", [0, 1, 1, 1], [0, 1, 1, 1]),
        flagged("every flag", [0xff; 4], [0xfe, 0xff, 0xff, 0xff]),
        header("fields that say nothing true", odd, 48, Ok(read)),
    ]
}

/// From the last 31 offsets on the trailer goes on at 48.
fn places() -> Vec<ByHand> {
    let at = |behind: usize, offset: usize| {
        header("a trailer at any offset", with_trailer(behind, offset), 48, Ok(REPAIRED.to_vec()))
    };
    let shortest = (48..80).map(|offset| at(32, offset));
    shortest.chain((48..148).map(|offset| at(100, offset))).collect()
}

fn counts() -> Vec<ByHand> {
    let marks = &TRAILER[..16];
    let second = |apart: usize| {
        let mut file = with_trailer(100, 60);
        put_round(&mut file, 48 + (12 + apart) % 100, marks);
        header("two trailers", file, 48, Err(17))
    };
    let wrong = |at: usize| {
        let mut file = with_trailer(100, 120);
        file[120 + at] ^= 1;
        header("a wrong byte in the marks", file, 48, Err(17))
    };
    let mut in_header = dirty(&[0; 100]);
    put(&mut in_header, 16, marks);
    let mut beside = with_trailer(100, 100);
    put(&mut beside, 16, marks);
    let mut others = vec![
        header("no trailer", dirty(&[0; 100]), 48, Err(17)),
        header("marks in the header only", in_header, 48, Err(17)),
        header("marks in the header too", beside, 48, Ok(REPAIRED.to_vec())),
        header("two equal trailers", dirty(&TRAILER.repeat(2)), 48, Err(17)),
        header("marks as numbers", dirty(&marks.repeat(2)), 48, Err(17)),
    ];
    others.extend((16..85).map(second));
    others.extend((0..16).map(wrong));
    others
}

fn rooms() -> Vec<ByHand> {
    let roomy = |room: usize, bytes: &[u8]| -> Due {
        if room < 48 {
            Err(13)
        } else {
            Ok(bytes.to_vec())
        }
    };
    let mut cases = Vec::new();
    for room in [0, 1, 47, 48, 49, 1_000] {
        cases.push(header("a room, clean", clean(60), room, roomy(room, &CLEAN)));
        cases.push(header("a room, dirty", with_trailer(60, 60), room, roomy(room, &REPAIRED)));
        cases.push(header("a room, but no trailer", dirty(&[0; 60]), room, Err(17)));
        cases.push(header("a room, but no header", vec![0; 60], room, Err(2)));
        cases.push(header("a room, but no file", vec![0; 40], room, Err(1)));
    }
    cases
}
