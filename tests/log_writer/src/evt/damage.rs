//! Damage to logs: each field of header, record and trailer, and trailers that are
//! lacking, or one too many.

use super::parts::*;
use crate::Random;

/// Offset and width of a field.
pub type Field = (usize, usize);

pub const HEADER_FIELDS: [Field; 12] = words();
/// The fixed fields; the second length is another one.
pub const RECORD_FIELDS: [Field; 16] = [
    (0, 4),
    (4, 4),
    (8, 4),
    (12, 4),
    (16, 4),
    (20, 4),
    (24, 2),
    (26, 2),
    (28, 2),
    (30, 2),
    (32, 4),
    (36, 4),
    (40, 4),
    (44, 4),
    (48, 4),
    (52, 4),
];
/// The marks and numbers, with the lengths around them.
pub const END_RECORD_FIELDS: [Field; 10] = words();

const fn words<const COUNT: usize>() -> [Field; COUNT] {
    let mut fields = [(0, 4); COUNT];
    let mut word = 0;
    while word < COUNT {
        fields[word].0 = 4 * word;
        word += 1;
    }
    fields
}

/// Another number than the one that stands there.
fn other(random: &mut Random, was: &[u8]) -> Vec<u8> {
    let number = was.iter().rev().fold(0, |number, byte| number << 8 | u32::from(*byte));
    let bit = 1 << random.below(8 * was.len());
    let near = [number.wrapping_add(1), number.wrapping_sub(1), number ^ bit];
    let bounds = [0, 1, 55, 56, 57, 59, 60, 61, u32::MAX, random.number() as u32];
    let chosen = if random.once_in(2) { random.pick(&near) } else { random.pick(&bounds) };
    let bytes = chosen.to_le_bytes()[..was.len()].to_vec();
    if bytes == was {
        return (number ^ bit).to_le_bytes()[..was.len()].to_vec();
    }
    bytes
}

/// Gives a field of the header another number.
pub fn wrong_header_field(random: &mut Random, file: &mut [u8], (at, width): Field) {
    let wrong = other(random, &file[at..at + width]);
    crate::put(file, at, &wrong);
}

/// Gives a field of the record, or of the trailer's record, at an offset another number.
pub fn wrong_field(random: &mut Random, file: &mut [u8], offset: usize, (at, width): Field) {
    let place = after(file.len(), offset, at);
    let wrong = other(random, &get_round(file, place, width));
    put_round(file, place, &wrong);
}

/// The second length of a record of so many bytes.
pub fn second_length(length: usize) -> Field {
    (length - 4, 4)
}

/// Writes the marks of a second trailer, so many bytes behind those of the first, which
/// stand at `marks`. From 16 to 31 the trailers overlap; both stay trailers up to 16 bytes
/// before the first one's marks come again.
pub fn put_second_trailer(file: &mut [u8], marks: usize, apart: usize) {
    let place = after(file.len(), marks, apart);
    put_round(file, place, &trailer([0x30, 0x30, 1, 0])[..16]);
}

/// Damages one byte of the marks, so that there is no trailer.
pub fn break_marks(random: &mut Random, file: &mut [u8], marks: usize) {
    let place = after(file.len(), marks, random.below(16));
    file[place] ^= 1 << random.below(8);
}
