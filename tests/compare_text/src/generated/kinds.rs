//! The kinds of generated questions.

use super::chunks::{chunk, deep_chunk, Made, Placed};
use super::edits;
use super::stock::Stock;
use crate::boundaries;
use crate::question::Question;
use log_writer::*;

/// The rounds of the values at their boundaries.
pub const SHARES: usize = 20;

fn ask(chunk: Vec<u8>, offset: usize) -> Question {
    Question::new("", chunk).at(offset as u64)
}

/// Every record of a sound chunk, offsets beside one of them, and a whole
/// record in the chunk's header, which is none to ask for.
pub fn sound(random: &mut Random, stock: &Stock, _: usize) -> Vec<Question> {
    let mut made = chunk(random, stock, 12);
    let low = random.between(0, 511 - 28);
    frame(&mut made.chunk, low, 28);
    let mut offsets: Vec<u64> = made.records.iter().map(|placed| placed.offset as u64).collect();
    offsets.push(low as u64);
    if let Some(placed) = made.records.last() {
        let offset = placed.offset as u64;
        offsets.extend([offset - 1, offset + 1, offset + placed.size as u64, offset + 65_536]);
    }
    vec![Question { offsets, ..Question::new("", made.chunk) }]
}

type Edit = fn(&mut Random, &Made, &Placed) -> Vec<u8>;

/// Edits of one chunk, each of one of its records.
fn edited_by(random: &mut Random, made: &Made, edit: Edit) -> Vec<Question> {
    let mut questions = Vec::new();
    for _ in 0..30 {
        let placed = &made.records[random.below(made.records.len())];
        questions.push(ask(edit(random, made, placed), placed.offset));
    }
    questions
}

pub fn edited(random: &mut Random, stock: &Stock, _: usize) -> Vec<Question> {
    let made = chunk(random, stock, 4);
    edited_by(random, &made, edits::edited)
}

/// A field is changed, and the length around it ends in it or a few bytes later.
pub fn cut_behind(random: &mut Random, stock: &Stock, _: usize) -> Vec<Question> {
    let made = chunk(random, stock, 3);
    edited_by(random, &made, edits::edited_and_cut)
}

/// The last record of a chunk with another size, and both copies of it.
pub fn resized(random: &mut Random, stock: &Stock, _: usize) -> Vec<Question> {
    let made = chunk(random, stock, 3);
    let placed = made.records.last().expect("a record");
    let mut questions = Vec::new();
    for _ in 0..12 {
        let mut chunk = made.chunk.clone();
        let size = match random.below(3) {
            0 => placed.size - random.between(1, placed.size - 28),
            1 => placed.size + random.between(1, 40),
            _ => random.between(28, placed.size),
        };
        frame(&mut chunk, placed.offset, size);
        if random.once_in(6) {
            put(&mut chunk, placed.offset + size - 4, &[random.number() as u8]);
        }
        questions.push(ask(chunk, placed.offset));
    }
    questions
}

/// A chunk of one record, of `least` to `most` bytes.
fn small_record(random: &mut Random, stock: &Stock, least: usize, most: usize) -> Made {
    loop {
        let made = chunk(random, stock, 1);
        if made.records.first().is_some_and(|placed| (least..=most).contains(&placed.size)) {
            return made;
        }
    }
}

/// A record cut to every size from 28 on.
pub fn cut_anywhere(random: &mut Random, stock: &Stock, _: usize) -> Vec<Question> {
    let made = small_record(random, stock, 200, 500);
    let placed = &made.records[0];
    let cut = |size: usize| {
        let mut chunk = made.chunk.clone();
        frame(&mut chunk, placed.offset, size);
        ask(chunk, placed.offset)
    };
    (28..placed.size).map(cut).collect()
}

pub fn every_bit(random: &mut Random, stock: &Stock, _: usize) -> Vec<Question> {
    let made = small_record(random, stock, 150, 300);
    let placed = &made.records[0];
    let flipped = |bit: usize| {
        let mut chunk = made.chunk.clone();
        chunk[placed.offset + bit / 8] ^= 1 << (bit % 8);
        ask(chunk, placed.offset)
    };
    (0..8 * placed.size).map(flipped).collect()
}

/// Each value at a boundary of its type, in an element and in an attribute.
/// A round takes the values of one share.
pub fn boundary_values(_: &mut Random, _: &Stock, round: usize) -> Vec<Question> {
    let mut questions = Vec::new();
    let fitting = boundaries::all().into_iter().filter(|value| value.bytes.len() < 60_000);
    for value in fitting.skip(round).step_by(SHARES) {
        let values = || [plain(value.kind, value.bytes.clone())];
        let element = one_record(|w| {
            w.instance(|w| w.open("P", |w| w.substitution(0x0d, 0)), &values());
        });
        let attribute = one_record(|w| {
            let shown = |w: &mut Writer| {
                w.with_attributes("P", |w| w.attribute("a", |w| w.substitution(0x0e, 0)));
            };
            w.instance(shown, &values());
        });
        questions.extend([ask(element, DATA), ask(attribute, DATA)]);
    }
    questions
}

/// Chains of elements around the limits of depth.
pub fn deep(random: &mut Random, stock: &Stock, _: usize) -> Vec<Question> {
    let made = deep_chunk(random, stock);
    let ask_one = |placed: &Placed| ask(made.chunk.clone(), placed.offset);
    made.records.iter().map(ask_one).collect()
}

/// Sound chunks that lack a byte, or have some too many.
pub fn lengths(random: &mut Random, stock: &Stock, round: usize) -> Vec<Question> {
    let made = chunk(random, stock, 2);
    let offset = made.records[0].offset;
    let mut bytes = made.chunk;
    put_u32(&mut bytes, CHUNK - 4, 0);
    let length = match round % 4 {
        0 => CHUNK - 1,
        1 => CHUNK + 1,
        2 => random.below(CHUNK),
        _ => CHUNK + random.below(CHUNK),
    };
    bytes.resize(CHUNK.max(length), 0);
    let behind = bytes.split_off(length);
    vec![ask(bytes, offset).behind(&behind)]
}
