//! Damaged logs.

use super::logs::{any_record, file_of, small, with_records};
use super::{alone, Input};
use log_writer::evt::*;
use log_writer::Random;
use support::damage::flip_bits;

pub fn header_field(random: &mut Random, round: usize) -> Input {
    let log = small(random);
    let mut file = file_of(random, &log);
    wrong_header_field(random, &mut file, HEADER_FIELDS[round % HEADER_FIELDS.len()]);
    alone(file)
}

/// First of clean headers, then of dirty ones.
pub fn header_bit(random: &mut Random, round: usize) -> Input {
    let log = random_log(random, 300);
    let mut file = if round < 8 * HEADER { log.closed() } else { log.dirty() };
    file[round / 8 % HEADER] ^= 1 << (round % 8);
    alone(file)
}

pub fn record_field(random: &mut Random, round: usize) -> Input {
    let log = with_records(random);
    let file = file_of(random, &log);
    // Also further than any record is long.
    let by = random.pick(&[0, 1, 2, 3, 331 * round]);
    let mut file = moved(&file, by);
    let (offset, length) = any_record(random, &log);
    let last = second_length(length);
    let field = RECORD_FIELDS.get(round % 17).copied().unwrap_or(last);
    let place = after(file.len(), offset, by);
    wrong_field(random, &mut file, place, field);
    alone(file)
}

pub fn trailer_field(random: &mut Random, round: usize) -> Input {
    let log = small(random);
    let mut file = log.dirty();
    let field = END_RECORD_FIELDS[round % END_RECORD_FIELDS.len()];
    wrong_field(random, &mut file, log.end(), field);
    alone(file)
}

pub fn no_trailer(random: &mut Random, _: usize) -> Input {
    let log = small(random);
    let mut file = file_of(random, &log);
    let marks = after(file.len(), log.end(), 4);
    break_marks(random, &mut file, marks);
    alone(file)
}

/// A second trailer at every distance; of too near a one the first is no trailer.
pub fn two_trailers(random: &mut Random, round: usize) -> Input {
    let log = small(random);
    let by = random.below(1_000);
    let mut file = moved(&file_of(random, &log), by);
    let marks = after(file.len(), log.end(), 4 + by);
    put_second_trailer(&mut file, marks, round);
    alone(file)
}

pub fn flipped(random: &mut Random, _: usize) -> Input {
    let log = small(random);
    let mut file = file_of(random, &log);
    let times = random.pick(&[1, 3, 20]);
    flip_bits(random, &mut file[HEADER..], times);
    alone(file)
}

/// Magics, lengths, marks, zeros and records, over and over each other.
pub fn crowded(random: &mut Random, round: usize) -> Input {
    let mut behind = Vec::new();
    while behind.len() < 400 {
        let length = random.pick(&[59u32, 60, 61, 64, 100, 352, 353]);
        match random.below(8) {
            0..=2 => behind.extend([&length.to_le_bytes()[..], &MAGIC].concat()),
            3..=5 => behind.extend(length.to_le_bytes()),
            6 => behind.extend(record(&Fields::default(), &random.bytes(4)[..round % 5])),
            _ => behind.extend(random.bytes(1)),
        }
    }
    if random.once_in(3) {
        behind.extend(&trailer([1, 2, 3, 4])[..random.pick(&[8, 16, 32])]);
    }
    behind.drain(..random.below(300));
    let file = file_with(random.pick(&[0, 0, DIRTY]), &behind);
    alone(moved(&file, random.below(400)))
}
