//! Records whose strings begin anywhere, and are closed or not.

use super::{alone, Input};
use log_writer::evt::*;
use log_writer::Random;

/// A file with room for the record and at most some more bytes, and the record at any
/// offset.
fn placed(random: &mut Random, bytes: &[u8]) -> Input {
    let more = random.pick(&[0, 1, 2, 3, 50]);
    let behind = random.bytes(bytes.len() + more);
    let mut file = file_with(0, &behind);
    let offset = HEADER + random.below(behind.len());
    put_round(&mut file, offset, bytes);
    alone(file)
}

/// Bytes with many zeros, so that units of zeros stand at odd and at even offsets.
fn rich_in_zeros(random: &mut Random, length: usize) -> Vec<u8> {
    let zeros = random.pick(&[2, 3, 6]);
    let byte = |random: &mut Random| match random.below(zeros) {
        0 if random.once_in(2) => random.pick(&[0x26, 0x41, 0xd8, 0xdc, 0xff]),
        0 => random.number() as u8,
        _ => 0,
    };
    (0..length).map(|_| byte(random)).collect()
}

pub fn by_chance(random: &mut Random, _: usize) -> Input {
    let length = random.pick(&[0, 1, 2, 3, 8, 40, 196, 200]);
    let body = rich_in_zeros(random, length);
    let string_offset = match random.below(4) {
        0 => 56,
        1 => FIXED + random.below(length + 6),
        2 => FIXED + length - random.below(4),
        _ => random.below(70),
    };
    let fields = Fields {
        number: random.number() as u32,
        written: random.number() as u32,
        string_count: random.pick(&[0, 1, 1, 2, 2, 3, 10, 0xffff]),
        string_offset: string_offset as u32,
        ..Fields::default()
    };
    let bytes = record(&fields, &body);
    placed(random, &bytes)
}

/// From before the fixed fields' end to behind the second length, and far away; of no
/// string, of one and of two.
pub fn every_offset(random: &mut Random, round: usize) -> Input {
    let body = [&log_writer::utf16("A\0é\0")[..], &[0xee; 3], &[0; 2]].concat();
    let far = [0x7fff_ffff, 0x8000_0038, 0x1_0038, 0xffff_ffff];
    let string_offset = match round / 3 % 45 {
        at @ 0..=3 => far[at],
        at => 42 + at as u32,
    };
    let string_count = (round % 3) as u16;
    let bytes = record(&Fields { string_count, string_offset, ..Fields::default() }, &body);
    placed(random, &bytes)
}

/// All strings that a record can count, and one byte too few for the last.
pub fn most(random: &mut Random, round: usize) -> Input {
    let fields = Fields { string_count: 0xffff, string_offset: 56, ..Fields::default() };
    let bytes = record(&fields, &vec![0; 131_070 - round % 3]);
    placed(random, &bytes)
}
