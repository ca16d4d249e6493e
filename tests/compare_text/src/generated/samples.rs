//! The chunks of the sample logs, as they are and damaged.

use super::stock::Stock;
use crate::question::Question;
use log_writer::{Random, CHUNK, DATA, HEADER};
use support::damage::{flip_bits, overlaps, wrong_second_sizes, zero_tail};
use support::offsets::worth_asking;
use support::samples::{read_sample, SAMPLES};

/// All chunks of the samples, full or not.
fn chunks() -> Vec<Vec<u8>> {
    let files = SAMPLES.map(|name| read_sample(&format!("{name}.evtx")));
    files.iter().flat_map(|file| file[HEADER..].chunks(CHUNK)).map(<[u8]>::to_vec).collect()
}

fn ask(chunk: Vec<u8>, offsets: Vec<u64>) -> Vec<Question> {
    vec![Question { offsets, ..Question::new("", chunk) }]
}

pub fn whole(_: &mut Random, _: &Stock, round: usize) -> Vec<Question> {
    let Some(chunk) = chunks().into_iter().nth(round) else { return Vec::new() };
    let offsets = worth_asking(&chunk, round as u64).into_iter().collect();
    ask(chunk, offsets)
}

fn damage(random: &mut Random, chunk: &mut [u8]) {
    match random.below(6) {
        0 => overlaps(random, &mut chunk[DATA..]),
        1 => zero_tail(random, &mut chunk[DATA..]),
        _ => (),
    }
    let times = random.pick(&[0, 20, 300, 3_000]);
    flip_bits(random, &mut chunk[DATA..], times);
}

/// Every record that stands in a damaged chunk, and offsets beside.
pub fn damaged(random: &mut Random, _: &Stock, round: usize) -> Vec<Question> {
    let full: Vec<Vec<u8>> = chunks().into_iter().filter(|chunk| chunk.len() == CHUNK).collect();
    let mut chunk = full[round % full.len()].clone();
    damage(random, &mut chunk);
    let offsets = worth_asking(&chunk, round as u64).into_iter().collect();
    ask(chunk, random.thin_out(offsets, 400))
}

/// A sample's file, damaged somewhere.
pub fn damaged_sample(random: &mut Random, round: usize) -> Vec<u8> {
    let mut file = read_sample(&format!("{}.evtx", SAMPLES[round % 3]));
    match random.below(5) {
        0 => file.truncate(random.below(file.len())),
        1 => zero_tail(random, &mut file),
        2 => wrong_second_sizes(random, &mut file[HEADER..HEADER + CHUNK]),
        _ => (),
    }
    let times = random.pick(&[0, 1, 30, 2_000]);
    flip_bits(random, &mut file, times);
    file
}
