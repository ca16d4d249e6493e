//! Edits of sound binary XML: one field changed to a number near it, to a bound
//! or to another of its sort, or one bit flipped.

use super::chunks::{Made, Placed};
use log_writer::{put, Field, Part, Random};

const TOKENS: [u8; 20] = [
    0x00, 0x01, 0x41, 0x02, 0x03, 0x04, 0x05, 0x45, 0x06, 0x46, 0x0c, 0x0d, 0x0e, 0x0f, 0x42, 0x4c,
    0x4d, 0x4e, 0x07, 0x81,
];

fn get(chunk: &[u8], at: usize, width: usize) -> u64 {
    second_reader::numbers::field(chunk, at, width)
}

/// A chunk with one or a few edits of a record or of what it may share.
pub fn edited(random: &mut Random, made: &Made, placed: &Placed) -> Vec<u8> {
    let mut chunk = made.chunk.clone();
    for _ in 0..random.pick(&[1, 1, 1, 1, 2, 3]) {
        if random.once_in(5) {
            let at = placed.offset + random.between(24, placed.size - 1);
            chunk[at] ^= 1 << random.below(8);
            continue;
        }
        let shared = !made.shared.is_empty() && random.once_in(6);
        let fields = if shared { &made.shared } else { &placed.fields };
        let field = fields[random.below(fields.len())];
        edit(random, &mut chunk, field, made, placed);
    }
    chunk
}

/// A chunk with one field changed or not, and the innermost length around it
/// set so that it ends in that field or a few bytes behind it.
pub fn edited_and_cut(random: &mut Random, made: &Made, placed: &Placed) -> Vec<u8> {
    let mut chunk = made.chunk.clone();
    let field = placed.fields[random.below(placed.fields.len())];
    let around = |length: &&Field| {
        let from = length.at + 4;
        let size = get(&chunk, length.at, 4) as usize;
        length.part == Part::Length && length.width == 4 && (from..from + size).contains(&field.at)
    };
    // Lengths are noted from the outside in.
    let innermost = placed.fields.iter().filter(around).last().copied();
    if random.once_in(2) {
        edit(random, &mut chunk, field, made, placed);
    }
    if let Some(length) = innermost {
        let kept = field.at - length.at - 4 + random.below(field.width + 4);
        put(&mut chunk, length.at, &(kept as u32).to_le_bytes());
    }
    chunk
}

fn edit(random: &mut Random, chunk: &mut [u8], field: Field, made: &Made, placed: &Placed) {
    let Field { part, at, width } = field;
    if matches!(part, Part::Token | Part::Units | Part::Value) {
        return edit_byte(random, chunk, field);
    }
    let old = get(chunk, at, width);
    let near = [old.wrapping_add(1), old.wrapping_sub(1), old.wrapping_add(2)];
    let bounds = [0, 1, 255, 256, 257, 0xffff, 0x1_0000, 0x8000_0000, 0xffff_ffff];
    let others: Vec<u64> = match part {
        Part::Kind => (0..=0x22).collect(),
        Part::Pointer => pointers(random, at, placed, made),
        _ => vec![old ^ 0x100, old * 2],
    };
    let new = match random.below(4) {
        0 | 1 => random.pick(&near),
        2 => random.pick(&bounds),
        _ => random.pick(&others),
    };
    put(chunk, at, &new.to_le_bytes()[..width]);
}

fn edit_byte(random: &mut Random, chunk: &mut [u8], field: Field) {
    if field.width == 0 {
        return;
    }
    let at = field.at + random.below(field.width);
    chunk[at] = match field.part {
        Part::Token => random.pick(&TOKENS),
        _ if random.once_in(2) => random.pick(&[0, 1, 0x2d, 0x30, 0x41, 0x7f, 0x80, 0xd8, 0xff]),
        _ => chunk[at] ^ 1 << random.below(8),
    };
}

/// Where a pointer may lead: the bounds, the next offset, this record, and
/// other names and definitions.
fn pointers(random: &mut Random, at: usize, placed: &Placed, made: &Made) -> Vec<u64> {
    let mut all = vec![511, 512, 513, 65_512, 65_513, 65_526, 65_527, 65_528, 65_535, 65_536];
    all.extend([at, at + 3, at + 4, at + 5, placed.offset, placed.offset + 24]);
    all.extend((0..10).filter(|_| !made.targets.is_empty()).map(|_| random.pick(&made.targets)));
    all.into_iter().map(|target| target as u64).collect()
}
