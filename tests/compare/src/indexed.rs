//! Indexes of any bytes, and chunks to add from.

use crate::fed::Differing;
use compare::indexes::compare_pair;
use log_writer::{put, record, Random, CHUNK, DATA};
use second_reader::index::{build, ENTRY_LENGTH};
use support::generate::{chunk_of, sound_chunk};
use support::kinds::{rounds, Kind};
use support::tally::Tally;

struct Input {
    chunk: Vec<u8>,
    index: Vec<u8>,
}

/// Makes an input from random numbers and the number of the round.
type Make = fn(&mut Random, usize) -> Input;

const KINDS: [Kind<Make>; 6] = [
    Kind { name: "indexes of random entries", rounds: 300, make: random_entries },
    Kind { name: "indexes with a bit that is not zero", rounds: 300, make: wrong_bit },
    Kind { name: "indexes of any length", rounds: 200, make: any_length },
    Kind { name: "indexes of a chunk, with a change", rounds: 200, make: changed },
    Kind { name: "additions to no chunk", rounds: 30, make: no_chunk },
    Kind { name: "indexes of more entries than a chunk has", rounds: 4, make: long },
];

/// Compares the readers on every input until they differ on one. Answers how
/// many there were.
pub fn compare_all(base: u64, tally: &mut Tally) -> Result<usize, Differing> {
    let mut count = 0;
    for (kind, seed, round) in rounds(&KINDS, base) {
        let Input { chunk, index } = (kind.make)(&mut Random::new(seed), round);
        if let Err(difference) = compare_pair(&chunk, &index, seed, tally) {
            let bytes = [chunk, index].concat();
            return Err(Differing { kind: kind.name, seed, part: 0, bytes, difference });
        }
        count += 1;
    }
    Ok(count)
}

/// A chunk of records with numbers that an index has room for; or one where
/// hardly any has.
fn chunk(random: &mut Random) -> Vec<u8> {
    if random.once_in(4) {
        return sound_chunk(random);
    }
    let mut data = Vec::new();
    for _ in 0..random.below(40) {
        let body = vec![0; random.below(200)];
        data.extend(record(random.number() >> random.pick(&[16, 40, 62]), &body));
    }
    chunk_of(random, &data)
}

/// So many entries, some with the same number. Their last bits are zero.
fn entries(random: &mut Random, count: usize) -> Vec<u8> {
    let mut index = random.bytes(ENTRY_LENGTH * count);
    let few = random.once_in(2);
    for entry in index.chunks_mut(ENTRY_LENGTH) {
        entry[10] &= 0xf0;
        if few {
            put(entry, 4, &[0, 0, 0, 0, 0, random.below(6) as u8]);
        }
        // An offset in a chunk's first records, so that some are left to add.
        if random.once_in(2) {
            put(entry, 0, &(random.below(6_000) as u16).to_be_bytes());
        }
    }
    index
}

fn random_entries(random: &mut Random, _: usize) -> Input {
    let count = random.pick(&[0, 1, 2, 3, 20, 300]);
    Input { chunk: chunk(random), index: entries(random, count) }
}

/// One of the four bits, in the first entry, the last or any.
fn wrong_bit(random: &mut Random, round: usize) -> Input {
    let count = random.pick(&[1, 2, 3, 20, 300]);
    let mut index = entries(random, count);
    let at = match round % 3 {
        0 => 0,
        1 => count - 1,
        _ => random.below(count),
    };
    index[ENTRY_LENGTH * at + 10] |= 1 << (round / 3 % 4);
    Input { chunk: chunk(random), index }
}

fn any_length(random: &mut Random, round: usize) -> Input {
    let length = if round < 100 { round } else { random.below(2_000) };
    let mut index = entries(random, 200);
    index.truncate(length);
    Input { chunk: chunk(random), index }
}

/// The index of a chunk that lacks entries, has some twice or in another order, or
/// has a wrong byte.
fn changed(random: &mut Random, _: usize) -> Input {
    let data: Vec<u8> = (0..random.between(2, 60))
        .flat_map(|_| record(random.number() >> random.pick(&[16, 62]), &[]))
        .collect();
    let chunk = chunk_of(random, &data);
    let mut index = build(&chunk, usize::MAX).expect("small numbers and any room");
    let count = index.len() / ENTRY_LENGTH;
    let at = ENTRY_LENGTH * random.below(count);
    match random.below(6) {
        0 => drop(index.drain(at..at + ENTRY_LENGTH)),
        1 => index.truncate(at),
        2 => index.extend_from_within(at..at + ENTRY_LENGTH),
        3 => index.rotate_left(at),
        4 => drop(index.drain(..at)),
        _ => index[at + random.below(ENTRY_LENGTH)] ^= 1 << random.below(8),
    }
    Input { chunk, index }
}

/// Bytes of another length, with an index or with bytes that are none.
fn no_chunk(random: &mut Random, round: usize) -> Input {
    let length = match round % 5 {
        0 => 0,
        1 => DATA,
        2 => CHUNK - 1,
        3 => CHUNK + 1,
        _ => random.below(2 * CHUNK),
    };
    let mut bytes = chunk(random);
    bytes.resize(length, 0);
    let count = random.below(4);
    let mut index = entries(random, count);
    if random.once_in(2) {
        index.pop();
    }
    Input { chunk: bytes, index }
}

/// Positions and lengths that take more than 16 bits.
fn long(random: &mut Random, round: usize) -> Input {
    let mut index = entries(random, [5_957, 5_958, 66_000, 100_000][round]);
    if round == 3 {
        // The last bit of all.
        *index.last_mut().expect("entries") |= 1;
    }
    Input { chunk: chunk(random), index }
}
