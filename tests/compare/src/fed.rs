//! Streams and the packets they are cut into, and stores of any bytes.

mod cuts;
mod stores;
mod streams;

use compare::streams::{compare_store, Joined};
use cuts::Cut;
use log_writer::Random;
use support::difference::Difference;
use support::kinds::{rounds, Kind};
use support::tally::Tally;

/// What the calls are made on.
pub enum Input {
    /// All bytes of a stream, and the ways to cut them.
    Stream { bytes: Vec<u8>, cuts: Vec<Cut> },
    /// A store as no call may have left it, and a packet.
    Store { store: Vec<u8>, packet: Vec<u8> },
}

/// An input that the readers differ on, and how it came about.
pub struct Differing {
    pub kind: &'static str,
    pub seed: u64,
    /// Which of the cuts of a stream.
    pub part: usize,
    pub bytes: Vec<u8>,
    pub difference: Difference,
}

/// Makes an input from random numbers and the number of the round.
type Make = fn(&mut Random, usize) -> Input;

const KINDS: [Kind<Make>; 16] = [
    Kind { name: "short streams", rounds: 120, make: streams::short },
    Kind { name: "beginnings inside records", rounds: 60, make: streams::inside },
    Kind { name: "first sizes of a stream", rounds: 16, make: streams::first_sizes },
    Kind { name: "sizes at the bounds in a stream", rounds: 16, make: streams::bound_sizes },
    Kind { name: "a wrong byte in the second size", rounds: 16, make: streams::second_sizes },
    Kind { name: "a magic every 4 bytes", rounds: 2, make: streams::magics },
    Kind { name: "the largest size, byte by byte", rounds: 3, make: streams::byte_by_byte },
    Kind { name: "records that one byte settles", rounds: 4, make: streams::crowded },
    Kind { name: "streams of smallest records", rounds: 2, make: streams::smallest_records },
    Kind { name: "streams without records", rounds: 2, make: streams::blank },
    Kind { name: "a record in blank packets", rounds: 80, make: streams::nearly_blank },
    Kind { name: "streams beyond 16,777,216 bytes", rounds: 1, make: streams::long },
    Kind { name: "sample files as streams", rounds: 6, make: streams::sample },
    Kind { name: "streams of several chunks", rounds: 6, make: streams::chunks },
    Kind { name: "stores of any bytes", rounds: 300, make: stores::any },
    Kind { name: "stores that a stream could leave", rounds: 300, make: stores::likely },
];

/// Compares the readers on every input until they differ on one. Answers how
/// many there were, each cut of a stream by itself.
pub fn compare_all(base: u64, tally: &mut Tally) -> Result<usize, Differing> {
    let mut count = 0;
    for (kind, seed, round) in rounds(&KINDS, base) {
        let input = (kind.make)(&mut Random::new(seed), round);
        match compare(&input, seed, tally) {
            Ok(parts) => count += parts,
            Err((part, difference)) => {
                let bytes = match input {
                    Input::Stream { bytes, .. } => bytes,
                    Input::Store { store, packet } => [store, packet].concat(),
                };
                return Err(Differing { kind: kind.name, seed, part, bytes, difference });
            }
        }
    }
    Ok(count)
}

/// Answers how many parts the input has, or the one that differs.
fn compare(input: &Input, seed: u64, tally: &mut Tally) -> Result<usize, (usize, Difference)> {
    match input {
        Input::Stream { bytes, cuts } => {
            let joined = Joined::of(bytes);
            for (part, cut) in cuts.iter().enumerate() {
                joined.compare(cut.lengths(), seed, tally).map_err(|found| (part, found))?;
            }
            Ok(cuts.len())
        }
        Input::Store { store, packet } => {
            compare_store(store, packet, seed, tally).map_err(|found| (0, found))?;
            Ok(1)
        }
    }
}
