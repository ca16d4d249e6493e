//! Records and files of lengths around the bounds.

use super::logs::{file_of, small};
use super::{alone, Input};
use log_writer::evt::*;
use log_writer::{put, put_u32, Random};

const LIMIT: usize = 16_777_216;

/// Any bytes with both lengths and the magic of a record, no strings, at an offset.
fn put_record(random: &mut Random, file: &mut [u8], offset: usize, length: usize) {
    let mut bytes = random.bytes(length.max(30));
    put(&mut bytes, 26, &[0, 0]);
    put_u32(&mut bytes, 0, length as u32);
    put(&mut bytes, 4, &MAGIC);
    if length >= 12 {
        put_u32(&mut bytes, length - 4, length as u32);
    }
    put_round(file, offset, &bytes);
}

/// Lengths from 0 to 99 in files that are longer, as long, or shorter.
pub fn records(random: &mut Random, round: usize) -> Input {
    let length = round % 100;
    let behind = random.pick(&[length, length + 1, length + 7, 120]).max(30);
    let mut file = file_with(0, &random.bytes(behind));
    let offset = HEADER + random.below(behind);
    put_record(random, &mut file, offset, length);
    alone(file)
}

/// As long as what stands behind the header, and one byte longer: of 256 bytes both
/// lengths can be read where only 255 are.
pub fn longest_records(random: &mut Random, round: usize) -> Input {
    let behind = random.pick(&[60, 61, 100, 255, 256]);
    let mut file = file_with(0, &random.bytes(behind));
    let offset = HEADER + random.below(behind);
    put_record(random, &mut file, offset, behind + round % 2);
    alone(file)
}

/// The front of a log, with the trailer there or not; the rest of it stands behind.
pub fn files(random: &mut Random, round: usize) -> Input {
    let log = small(random);
    let mut file = file_of(random, &log);
    if random.once_in(2) {
        put(&mut file, HEADER, &end_record([1, 2, 3, 4]));
    }
    let behind = file.split_off((round / 2).min(file.len()));
    (file, behind)
}

/// Files of the most bytes, and of one more; the last three are dirty, and one of
/// these has a trailer.
pub fn at_the_limit(random: &mut Random, round: usize) -> Input {
    let length = if round % 3 == 2 { LIMIT + 1 } else { LIMIT };
    let mut file = file_with(u32::from(round >= 3), &vec![0; length - HEADER]);
    let record = random_event(random, 20).record(1);
    put_round(&mut file, length - random.between(1, record.len()), &record);
    put_record(random, &mut file, 1_000, 60);
    if round == 4 {
        put(&mut file, LIMIT / 2, &trailer([1, 2, 3, 4]));
    }
    alone(file)
}
