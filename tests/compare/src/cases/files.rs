//! Whole files, in their parts and as loose bytes.

use super::{one, Input};
use log_writer::{Random, CHUNK, HEADER};
use support::damage::{flip_bits, zero_tail};
use support::generate::{sound_chunk, sound_file_header};
use support::samples::{read_sample, SAMPLES};

/// A file's header, chunks and rest, and the file as loose bytes.
fn parts(file: Vec<u8>) -> Vec<Input> {
    let (header, rest) = file.split_at(HEADER.min(file.len()));
    let mut inputs = one(header.to_vec());
    inputs.extend(rest.chunks(CHUNK).flat_map(|chunk| one(chunk.to_vec())));
    inputs.extend(one(file));
    inputs
}

fn nth_sample(round: usize) -> Vec<u8> {
    read_sample(&format!("{}.evtx", SAMPLES[round % 3]))
}

pub fn sample(_: &mut Random, round: usize) -> Vec<Input> {
    parts(nth_sample(round))
}

pub fn damaged_sample(random: &mut Random, round: usize) -> Vec<Input> {
    let mut file = nth_sample(round);
    match random.below(3) {
        0 => file.truncate(random.below(file.len())),
        1 => zero_tail(random, &mut file),
        _ => (),
    }
    let times = random.pick(&[0, 1, 30, 2_000]);
    flip_bits(random, &mut file, times);
    parts(file)
}

pub fn sound(random: &mut Random, _: usize) -> Vec<Input> {
    let mut file = sound_file_header(random);
    for _ in 0..random.between(1, 2) {
        file.extend(sound_chunk(random));
    }
    let left_over = random.pick(&[0, 0, 1, 600]);
    file.extend(random.bytes(left_over));
    parts(file)
}
