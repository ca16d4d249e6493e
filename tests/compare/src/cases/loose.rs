//! Loose bytes of any origin.

use super::{cut, one, with_behind, Input};
use log_writer::{frame, put, Random, CHUNK, HEADER};
use support::damage::overlaps;
use support::generate::{dense_bytes, random_record, record_starts, sound_chunk};

pub fn random_bytes(random: &mut Random, round: usize) -> Vec<Input> {
    let length = random.pick(&[HEADER, CHUNK, CHUNK, 100_000]);
    let mut bytes = random.bytes(length);
    match round % 3 {
        0 => put(&mut bytes, 0, b"ElfFile\0"),
        1 => put(&mut bytes, 0, b"ElfChnk\0"),
        _ => (),
    }
    one(bytes)
}

pub fn short_bytes(random: &mut Random, _: usize) -> Vec<Input> {
    let length = random.below(200);
    let bytes = dense_bytes(random, length);
    let behind = dense_bytes(random, 64);
    with_behind(bytes, behind)
}

/// A record of 28 to 36 bytes with the lent part ending before, at or after
/// its end, down to no bytes at all.
pub fn short_record(random: &mut Random, round: usize) -> Vec<Input> {
    let size = random.between(28, 36);
    let mut bytes = random_record(random, size);
    bytes.extend(random.bytes(64));
    cut(bytes, round)
}

pub fn cut_in_a_record(random: &mut Random, _: usize) -> Vec<Input> {
    let bytes = sound_chunk(random);
    let starts = record_starts(&bytes);
    let at = if starts.is_empty() { 0 } else { random.pick(&starts) };
    let kept = (at + random.pick(&[0, 4, 8, 27, 28, 29, 60])).min(bytes.len());
    cut(bytes, kept)
}

pub fn long_bytes(random: &mut Random, _: usize) -> Vec<Input> {
    let mut bytes = Vec::new();
    for _ in 0..random.between(1, 3) {
        let skipped = random.below(300);
        bytes.extend(random.bytes(skipped));
        bytes.extend(sound_chunk(random));
    }
    overlaps(random, &mut bytes);
    one(bytes)
}

/// Loose bytes of the most that is searched, and one more.
pub fn at_the_limit(random: &mut Random, round: usize) -> Vec<Input> {
    const LIMIT: usize = 16_777_216;
    let length = if round % 3 == 2 { LIMIT + 1 } else { LIMIT };
    let mut bytes = match round {
        0 => vec![0; length],
        1 => random_record(random, 28).repeat(LIMIT / 28),
        _ => dense_bytes(random, 100_000).repeat(LIMIT / 100_000),
    };
    bytes.resize(length, 0);
    frame(&mut bytes, LIMIT - 28, 28);
    one(bytes)
}

/// Zeros in which a record, a single 2a, or a magic without a record stands at one of
/// the first or of the last offsets, and as many zeros as the round says. The search
/// looks at 32 offsets in a turn and at the last 35 bytes apart: each place in a turn is
/// among these, the last byte, and a magic in two turns or cut short by the end.
pub fn in_zeros(_: &mut Random, round: usize) -> Vec<Input> {
    const LENGTH: usize = 200;
    let laid = |lay: &dyn Fn(&mut [u8])| {
        let mut bytes = vec![0; LENGTH];
        lay(&mut bytes);
        one(bytes)
    };
    let inputs = [
        laid(&|bytes| frame(bytes, round, 28)),
        laid(&|bytes| frame(bytes, LENGTH - 28 - round, 28)),
        laid(&|bytes| bytes[round] = 0x2a),
        laid(&|bytes| bytes[LENGTH - 1 - round] = 0x2a),
        laid(&|bytes| {
            put(bytes, round, &[0x2a; 2]);
            frame(bytes, round + 30, 28);
        }),
        laid(&|bytes| put(bytes, LENGTH - 2 - round, &[0x2a; 2])),
        one(vec![0; round]),
    ];
    inputs.into_iter().flatten().collect()
}
