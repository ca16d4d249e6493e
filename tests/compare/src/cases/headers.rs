//! Headers with wrong fields and flipped bits, and lengths one off.

use super::{checks_only, cut, one, Input};
use log_writer::{Random, DATA};
use support::damage::*;
use support::generate::{small_chunk, sound_chunk, sound_file_header};

pub fn chunk_fields(random: &mut Random, _: usize) -> Vec<Input> {
    let mut chunk = small_chunk(random);
    wrong_chunk_field(random, &mut chunk);
    checks_only(chunk)
}

pub fn file_fields(random: &mut Random, _: usize) -> Vec<Input> {
    let mut header = sound_file_header(random);
    wrong_file_field(random, &mut header);
    checks_only(header)
}

pub fn chunk_field_sets(random: &mut Random, round: usize) -> Vec<Input> {
    let mut chunk = small_chunk(random);
    wrong_chunk_fields(&mut chunk, round);
    checks_only(chunk)
}

pub fn file_field_sets(random: &mut Random, round: usize) -> Vec<Input> {
    let mut header = sound_file_header(random);
    wrong_file_fields(&mut header, round);
    checks_only(header)
}

/// Flips the bit of the round in a header of so many bytes; in rounds beyond its
/// last bit, any bit.
fn flip_bit(random: &mut Random, bytes: &mut [u8], header: usize, round: usize) {
    let bit = if round < 8 * header { round } else { random.below(8 * bytes.len()) };
    bytes[bit / 8] ^= 1 << (bit % 8);
}

pub fn file_header_bit(random: &mut Random, round: usize) -> Vec<Input> {
    let mut header = sound_file_header(random);
    flip_bit(random, &mut header, 128, round);
    checks_only(header)
}

pub fn chunk_header_bit(random: &mut Random, round: usize) -> Vec<Input> {
    let mut chunk = small_chunk(random);
    flip_bit(random, &mut chunk, DATA, round);
    checks_only(chunk)
}

/// Sound headers and chunks that lack their last byte, have one too many, or are
/// cut anywhere; the bytes that are lacking stand behind.
pub fn lengths_one_off(random: &mut Random, round: usize) -> Vec<Input> {
    let mut bytes = if round % 2 == 0 { sound_file_header(random) } else { sound_chunk(random) };
    let length = bytes.len();
    match round / 2 % 3 {
        0 => cut(bytes, length - 1),
        1 => {
            bytes.push(0);
            one(bytes)
        }
        _ => cut(bytes, random.below(length)),
    }
}
