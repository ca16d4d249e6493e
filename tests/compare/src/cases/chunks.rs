//! Chunks, damaged or at a bound.

use super::{cut, one, Input};
use log_writer::{frame, put, record, Random, CHUNK, DATA};
use support::damage::{self, flip_bits, overlaps, zero_tail};
use support::generate::*;

fn damaged(random: &mut Random, damage: fn(&mut Random, &mut [u8])) -> Vec<Input> {
    let mut chunk = sound_chunk(random);
    damage(random, &mut chunk);
    one(chunk)
}

pub fn flipped(random: &mut Random, _: usize) -> Vec<Input> {
    let mut chunk = sound_chunk(random);
    let times = random.pick(&[1, 2, 20, 500]);
    flip_bits(random, &mut chunk[DATA..], times);
    if random.once_in(2) {
        seal_chunk(&mut chunk);
    }
    one(chunk)
}

pub fn zero_tailed(random: &mut Random, _: usize) -> Vec<Input> {
    damaged(random, zero_tail)
}

pub fn wrong_second_sizes(random: &mut Random, _: usize) -> Vec<Input> {
    damaged(random, damage::wrong_second_sizes)
}

pub fn wrong_first_sizes(random: &mut Random, _: usize) -> Vec<Input> {
    damaged(random, damage::wrong_first_sizes)
}

pub fn overlapping(random: &mut Random, _: usize) -> Vec<Input> {
    let mut chunk = sound_chunk(random);
    overlaps(random, &mut chunk[DATA..]);
    seal_chunk(&mut chunk);
    one(chunk)
}

/// Records that begin in the chunk's header, some of them reaching out of it.
pub fn low_records(random: &mut Random, _: usize) -> Vec<Input> {
    let mut chunk = if random.once_in(3) { vec![0; CHUNK] } else { sound_chunk(random) };
    let at = random.pick(&[128, 200, 484, 485, 500, 508, 511]);
    let size = random.pick(&[28, 28, 64, 300, 2_000]);
    frame(&mut chunk, at, size);
    if random.once_in(2) {
        seal_chunk_header(&mut chunk);
    }
    one(chunk)
}

pub fn garbage_header(random: &mut Random, _: usize) -> Vec<Input> {
    let mut chunk = sound_chunk(random);
    let garbage = random.bytes(DATA);
    put(&mut chunk, 0, &garbage);
    if random.once_in(2) {
        put(&mut chunk, 0, b"ElfChnk\0");
    }
    one(chunk)
}

/// Frames with stated sizes at and beyond the bounds, in a chunk or in longer
/// loose bytes, where a size of 65,025 would fit.
pub fn bound_sizes(random: &mut Random, _: usize) -> Vec<Input> {
    let mut bytes = if random.once_in(2) { sound_chunk(random) } else { vec![0; 140_000] };
    for _ in 0..random.between(1, 5) {
        let size = random.pick(&[26, 27, 28, 29, 65_023, 65_024, 65_025, 65_026]);
        let at = random.pick(&[512, 513, 600, 5_000]);
        frame(&mut bytes, at, size);
    }
    one(bytes)
}

/// A record whose end is at the chunk's last byte or some bytes off; where it
/// reaches out, its continuation stands behind the chunk.
pub fn last_byte(random: &mut Random, round: usize) -> Vec<Input> {
    let mut bytes = sound_chunk(random);
    bytes.extend([0; 80]);
    let size = random.pick(&[28, 29, 100, 65_000]);
    let end = CHUNK - 4 + round % 10;
    frame(&mut bytes, end - size, size);
    seal_chunk(&mut bytes[..CHUNK]);
    cut(bytes, CHUNK)
}

pub fn dense(random: &mut Random, _: usize) -> Vec<Input> {
    let mut chunk = sound_chunk(random);
    let dense = dense_bytes(random, CHUNK - DATA);
    put(&mut chunk, DATA, &dense);
    one(chunk)
}

pub fn smallest_records(random: &mut Random, round: usize) -> Vec<Input> {
    let count = (CHUNK - DATA) / 28 - round;
    let data: Vec<u8> = (0..count).flat_map(|_| random_record(random, 28)).collect();
    one(chunk_of(random, &data))
}

/// Records of few numbers, so that several have the same, up to and beyond what an
/// index has room for.
pub fn bound_numbers(random: &mut Random, round: usize) -> Vec<Input> {
    const NUMBERS: [u64; 9] =
        [0, 1, 40_112, 1 << 47, (1 << 48) - 2, (1 << 48) - 1, 1 << 48, (1 << 48) + 1, u64::MAX];
    // Half of the chunks have no number that is too large, and some have just one.
    let known = if round % 2 == 0 { 6 } else { NUMBERS.len() };
    let count = random.pick(&[1, 2, 3, 30, 400]);
    let large = (round % 4 == 2).then(|| random.below(count));
    let mut data = Vec::new();
    for index in 0..count {
        let number = random.pick(&NUMBERS[..known]);
        let number = if Some(index) == large { random.pick(&NUMBERS[6..]) } else { number };
        let body = vec![0; random.below(60)];
        data.extend(record(number, &body));
    }
    one(chunk_of(random, &data))
}

pub fn largest_record(random: &mut Random, round: usize) -> Vec<Input> {
    let data = random_record(random, CHUNK - DATA - round);
    one(chunk_of(random, &data))
}
