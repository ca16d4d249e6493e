//! Generated questions: sound binary XML, edits of it, and shapes around the
//! limits. Each kind makes questions from a seed, and the seeds follow from one
//! number.

mod chunks;
mod edits;
mod kinds;
mod limits;
mod samples;
mod stock;
mod trees;

use crate::question::Question;
use log_writer::Random;
use support::kinds::{rounds, Kind};

pub use chunks::{chunk as sound_chunk, seal, Made};
pub use samples::damaged_sample;
pub use stock::Stock;

/// The number for a run that is given none.
pub const SEED: u64 = 0x0065_7674_7800_0002;

/// Makes questions from random numbers and the number of the round.
type Make = fn(&mut Random, &Stock, usize) -> Vec<Question>;

const KINDS: [Kind<Make>; 13] = [
    Kind { name: "sample chunks", rounds: 7, make: samples::whole },
    Kind { name: "damaged sample chunks", rounds: 100, make: samples::damaged },
    Kind { name: "sound chunks", rounds: 800, make: kinds::sound },
    Kind { name: "edited records", rounds: 2_000, make: kinds::edited },
    Kind { name: "lengths that end behind a field", rounds: 800, make: kinds::cut_behind },
    Kind { name: "records cut or stretched", rounds: 300, make: kinds::resized },
    Kind { name: "records cut anywhere", rounds: 12, make: kinds::cut_anywhere },
    Kind { name: "every bit of a record", rounds: 8, make: kinds::every_bit },
    Kind {
        name: "values at their boundaries",
        rounds: kinds::SHARES,
        make: kinds::boundary_values,
    },
    Kind { name: "deep trees", rounds: 300, make: kinds::deep },
    Kind { name: "nested fragments", rounds: 500, make: limits::nested },
    Kind { name: "counts around the limit", rounds: 150, make: limits::counts },
    Kind { name: "chunk lengths", rounds: 40, make: kinds::lengths },
];

/// Hands every question to `ask` until it answers an error.
pub fn for_each<E>(
    base: u64,
    ask: &mut dyn FnMut(&Question) -> Result<(), E>,
) -> Result<(), (Question, E)> {
    let stock = Stock::of_boundaries();
    for (kind, seed, round) in rounds(&KINDS, base) {
        let questions = (kind.make)(&mut Random::new(seed), &stock, round);
        for (part, question) in questions.into_iter().enumerate() {
            let question = Question { name: kind.name.to_string(), seed, part, ..question };
            if let Err(error) = ask(&question) {
                return Err((question, error));
            }
        }
    }
    Ok(())
}

#[cfg(test)]
mod tests {
    use super::*;
    use log_writer::{put, Field, Part};
    use second_reader::binxml::record_text;

    const CHUNKS: u64 = 300;

    fn replaced(chunk: &[u8], offset: usize) -> usize {
        let text = record_text(chunk, offset as u64, 1 << 20).unwrap_or_default();
        String::from_utf8(text).expect("UTF-8").matches('\u{fffd}').count()
    }

    /// A unit at the value's end that is zero, and whose text has another
    /// character U+FFFD if it is 1: so a reader that writes closing zeros writes
    /// another text.
    fn drops_a_zero(chunk: &[u8], offset: usize, field: &Field) -> bool {
        let end = field.at + field.width;
        if field.part != Part::Value || field.width < 2 || chunk[end - 2..end] != [0, 0] {
            return false;
        }
        let mut other = chunk.to_vec();
        put(&mut other, end - 2, &[1, 0]);
        replaced(&other, offset) > replaced(chunk, offset)
    }

    /// A literal whose last unit is zero.
    fn keeps_a_zero(chunk: &[u8], field: &Field) -> bool {
        let (at, literal) = (field.at, matches!(chunk[field.at], 0x05 | 0x45));
        if field.part != Part::Token || !literal || chunk[at + 2..at + 4] == [0, 0] {
            return false;
        }
        let end = at + 4 + 2 * usize::from(u16::from_le_bytes([chunk[at + 2], chunk[at + 3]]));
        chunk[end - 2..end] == [0, 0]
    }

    /// Of the generated records a fair part shows a value whose closing zeros are
    /// dropped, and a fair part has a literal that keeps them.
    #[test]
    fn closing_zeros_are_often_shown() {
        let stock = Stock::of_boundaries();
        let (mut records, mut dropping, mut keeping) = (0, 0, 0);
        for seed in 0..CHUNKS {
            let made = sound_chunk(&mut Random::new(seed), &stock, 12);
            for placed in &made.records {
                let shows = |field: &Field| drops_a_zero(&made.chunk, placed.offset, field);
                records += 1;
                dropping += usize::from(placed.fields.iter().any(shows));
                keeping +=
                    usize::from(placed.fields.iter().any(|field| keeps_a_zero(&made.chunk, field)));
            }
        }
        println!("{dropping} records drop zeros and {keeping} keep them, of {records}");
        assert!(20 * dropping > records && 10 * keeping > records);
    }
}
