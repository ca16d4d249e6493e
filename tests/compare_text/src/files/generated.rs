//! Generated logs and damaged samples.

use super::{File, Input};
use crate::generated::{damaged_sample, seal, sound_chunk, Stock};
use log_writer::{Random, CHUNK, HEADER};
use support::damage::{flip_bits, wrong_chunk_field, wrong_file_field};
use support::generate::sound_file_header;
use support::kinds::round_seed;

/// The number for a run that is given none.
pub const SEED: u64 = 0x0065_7674_7800_0003;
const SOUND: usize = 150;
const DAMAGED: usize = 60;
const CUT: usize = 40;

/// A sealed chunk of generated records, now and then damaged. Its free space
/// begins at the last record's end, at the chunk's end, or inside a record.
fn chunk(random: &mut Random, stock: &Stock) -> Vec<u8> {
    let most = random.pick(&[0, 1, 5, 30]);
    let made = sound_chunk(random, stock, most);
    let mut chunk = made.chunk;
    let end = made.records.last().map_or(512, |placed| placed.offset + placed.size);
    let free = match random.below(4) {
        0 if !made.records.is_empty() => {
            let placed = &made.records[random.below(made.records.len())];
            placed.offset + random.between(0, placed.size)
        }
        1 => CHUNK,
        _ => end,
    };
    seal(&mut chunk, free);
    match random.below(5) {
        0 => wrong_chunk_field(random, &mut chunk),
        1 => flip_bits(random, &mut chunk[512..], 40),
        _ => (),
    }
    chunk
}

fn log(random: &mut Random, stock: &Stock) -> Vec<u8> {
    let mut file = sound_file_header(random);
    if random.once_in(4) {
        wrong_file_field(random, &mut file);
    }
    for _ in 0..random.pick(&[0, 1, 1, 2, 3]) {
        file.extend(chunk(random, stock));
    }
    let left_over = random.pick(&[0, 0, 0, 1, 27, 4_096, 65_535]);
    file.extend(random.bytes(left_over));
    file
}

/// A log cut around a multiple of the chunk's length.
fn cut_log(random: &mut Random, stock: &Stock) -> Vec<u8> {
    let mut file = sound_file_header(random);
    for _ in 0..2 {
        file.extend(chunk(random, stock));
    }
    let around = random.pick(&[0, HEADER, HEADER + CHUNK, HEADER + 2 * CHUNK]);
    file.truncate((around + random.below(5)).saturating_sub(2));
    file
}

/// Hands every file to `list` until it answers an error.
pub fn for_each<E>(
    base: u64,
    list: &mut dyn FnMut(&File) -> Result<(), E>,
) -> Result<(), (File, E)> {
    let stock = Stock::of_boundaries();
    for round in 0..SOUND + CUT + DAMAGED {
        let seed = round_seed(base, 0, round);
        let random = &mut Random::new(seed);
        let (name, bytes) = match round {
            0..SOUND => ("generated logs", log(random, &stock)),
            _ if round < SOUND + CUT => ("logs cut", cut_log(random, &stock)),
            _ => ("damaged samples", damaged_sample(random, round)),
        };
        let input = Input::Pieces(random.pick(&[1 << 20, 1 << 20, 65_536, 4_095, 777]));
        let file = File { seed, input, ..File::new(name, bytes) };
        list(&file).map_err(|error| (file, error))?;
    }
    Ok(())
}
