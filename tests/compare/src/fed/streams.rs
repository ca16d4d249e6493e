//! Streams at the bounds of what is open, and usual ones.

use super::cuts::{usual, Cut};
use super::Input;
use log_writer::{frame, put, Random, CHUNK, MAGIC, PACKET};
use support::damage::overlaps;
use support::generate::{dense_bytes, random_record, sound_chunk};
use support::samples::{read_sample, SAMPLES};

const LARGEST: usize = 65_024;

fn usually_cut(random: &mut Random, bytes: Vec<u8>) -> Input {
    let cuts = usual(random, bytes.len());
    Input::Stream { bytes, cuts }
}

/// Zeros, or bytes in which records and near misses stand everywhere.
fn ground(random: &mut Random, length: usize) -> Vec<u8> {
    if random.once_in(2) {
        dense_bytes(random, length)
    } else {
        vec![0; length]
    }
}

pub fn short(random: &mut Random, _: usize) -> Input {
    let length = random.below(200);
    let bytes = dense_bytes(random, length);
    usually_cut(random, bytes)
}

/// A record with beginnings of others inside it and behind it, and in four of
/// five rounds with a wrong byte in its second size.
pub fn inside(random: &mut Random, round: usize) -> Input {
    let (front, size) = (random.below(4), random.between(40, 130));
    let mut bytes = dense_bytes(random, front + size + 60);
    frame(&mut bytes, front, size);
    if round % 5 < 4 {
        bytes[front + size - 4 + round % 5] ^= 1 << random.below(8);
    }
    usually_cut(random, bytes)
}

/// A magic, a first size of bytes that rule it out in turn or do not, and a
/// record, which is listed when they have.
pub fn first_sizes(random: &mut Random, round: usize) -> Input {
    const SIZES: [[u8; 4]; 16] = [
        [27, 0, 0, 0],
        [28, 0, 0, 0],
        [28, 0, 1, 0],
        [28, 0, 0, 1],
        [28, 1, 0, 0],
        [28, 1, 128, 0],
        [28, 1, 0, 128],
        [0, 0, 0, 0],
        [0, 1, 0, 0],
        [255, 0, 0, 0],
        [0, 254, 0, 0],
        [0, 254, 0, 1],
        [1, 254, 0, 0],
        [255, 253, 0, 0],
        [255, 255, 0, 0],
        [255, 255, 255, 255],
    ];
    let record = random_record(random, 28 + round % 2);
    let bytes = [&[0x2a], &MAGIC[..], &SIZES[round % 16], &record, &[0; 20]].concat();
    usually_cut(random, bytes)
}

/// Stated sizes at and beyond the bounds, with both copies equal.
pub fn bound_sizes(random: &mut Random, round: usize) -> Input {
    let size = [27, 28, LARGEST, LARGEST + 1][round % 4];
    let front = random.below(40);
    let mut bytes = ground(random, front + size + 700);
    put(&mut bytes, front + 8, &random_record(random, 28));
    frame(&mut bytes, front, size);
    usually_cut(random, bytes)
}

/// A record with another inside and one behind it, and a wrong byte in its
/// second size.
pub fn second_sizes(random: &mut Random, round: usize) -> Input {
    let size = [64, 90, 5_000, LARGEST][round / 4 % 4];
    let mut bytes = ground(random, size + 100);
    frame(&mut bytes, 0, size);
    put(&mut bytes, 12, &random_record(random, 28));
    put(&mut bytes, size, &random_record(random, 40));
    bytes[size - 4 + round % 4] ^= 1 << random.below(8);
    usually_cut(random, bytes)
}

/// Each magic is the size of the one before it, 10,794.
pub fn magics(random: &mut Random, round: usize) -> Input {
    let mut bytes = MAGIC.repeat(3_000 + round);
    bytes.extend(random_record(random, 28));
    usually_cut(random, bytes)
}

/// Beginnings of largest records inside each other, each with a second size
/// that is wrong in its last byte.
fn largest_in_each_other(length: usize) -> Vec<u8> {
    // The second size stands 65,020 bytes on, which is 12 more than a multiple of 16.
    let unit = [0x2a, 0x2a, 0, 0, 0, 254, 0, 0, 1, 1, 1, 1, 0, 254, 0, 1];
    unit.into_iter().cycle().take(length).collect()
}

/// The largest record, the same with a wrong last byte, and largest ones inside
/// each other, in packets of one byte.
pub fn byte_by_byte(random: &mut Random, round: usize) -> Input {
    let mut bytes = match round {
        2 => largest_in_each_other(LARGEST + 300),
        _ => [vec![0; 2], random_record(random, LARGEST)].concat(),
    };
    if round == 1 {
        *bytes.last_mut().expect("a record") ^= 1;
    }
    bytes.extend(random_record(random, 28));
    Input::Stream { bytes, cuts: vec![Cut::Width(1)] }
}

/// A largest record with a wrong last byte and smallest ones in it and behind
/// it: they are listed together, when that byte comes.
pub fn crowded(random: &mut Random, round: usize) -> Input {
    let mut bytes = random_record(random, LARGEST);
    let filling = random_record(random, 28).repeat((2 * PACKET - 8) / 28);
    bytes.truncate(8);
    bytes.extend(filling);
    bytes[LARGEST - 4..LARGEST].copy_from_slice(&[0, 254, 0, 1]);
    let first = LARGEST - [1, 2, 5, 100][round % 4];
    Input::Stream { bytes, cuts: vec![Cut::Lengths(vec![first, PACKET])] }
}

pub fn smallest_records(random: &mut Random, round: usize) -> Input {
    let bytes = random_record(random, 28 + round).repeat(5_000);
    usually_cut(random, bytes)
}

pub fn blank(random: &mut Random, round: usize) -> Input {
    let bytes = vec![[0, 0x2a][round % 2]; 150_000];
    usually_cut(random, bytes)
}

/// A record and a beginning of one in zeros, so that whether a packet is blank hangs on
/// where it is cut.
pub fn nearly_blank(random: &mut Random, round: usize) -> Input {
    let mut bytes = vec![0; 200];
    frame(&mut bytes, round, 28);
    put(&mut bytes, 199 - round, &MAGIC[..1 + round.min(2)]);
    usually_cut(random, bytes)
}

/// More than the 16,777,216 bytes that are searched at once, with records before,
/// around and behind that length.
pub fn long(random: &mut Random, _: usize) -> Input {
    const SEARCHED: usize = 16_777_216;
    let mut bytes = vec![0; SEARCHED + 200_000];
    for at in [0, SEARCHED - 60, SEARCHED - 20, SEARCHED + 8, SEARCHED + 150_000] {
        put(&mut bytes, at, &random_record(random, 28));
    }
    Input::Stream { bytes, cuts: vec![Cut::Width(1_500), Cut::Width(PACKET)] }
}

/// The samples, as they are and with records written over what stands there.
pub fn sample(random: &mut Random, round: usize) -> Input {
    let mut bytes = read_sample(&format!("{}.evtx", SAMPLES[round % 3]));
    if round >= 3 {
        overlaps(random, &mut bytes);
    }
    usually_cut(random, bytes)
}

pub fn chunks(random: &mut Random, _: usize) -> Input {
    let mut bytes = Vec::with_capacity(3 * CHUNK);
    for _ in 0..random.between(1, 2) {
        let skipped = random.below(300);
        bytes.extend(random.bytes(skipped));
        bytes.extend(sound_chunk(random));
    }
    overlaps(random, &mut bytes);
    let kept = random.between(bytes.len() / 2, bytes.len());
    bytes.truncate(kept);
    usually_cut(random, bytes)
}
