//! The inputs of the comparison: each kind makes inputs from a seed, and the
//! seeds follow from one number.

mod chunks;
mod files;
mod headers;
mod loose;

use log_writer::Random;
use support::difference::{Difference, Outcome};
use support::kinds::{rounds, Kind};

/// The number for a run that is given none.
pub const SEED: u64 = 0x0065_7674_7800_0001;

/// An input, and how it came about.
pub struct Case {
    pub kind: &'static str,
    pub seed: u64,
    /// Which of the inputs that this kind makes of this seed.
    pub part: usize,
    pub bytes: Vec<u8>,
    /// What stands in memory after the lent bytes.
    pub behind: Vec<u8>,
    pub calls: Calls,
}

/// Which calls an input is for.
#[derive(Clone, Copy, PartialEq, Eq)]
pub enum Calls {
    All,
    /// The header checks only, for inputs that differ in header bytes alone.
    Checks,
}

/// Lent bytes, what stands behind them, and the calls they are for.
pub struct Input {
    bytes: Vec<u8>,
    behind: Vec<u8>,
    calls: Calls,
}

/// Makes inputs from random numbers and the number of the round.
type Make = fn(&mut Random, usize) -> Vec<Input>;

const KINDS: [Kind<Make>; 30] = [
    Kind { name: "sample files", rounds: 3, make: files::sample },
    Kind { name: "damaged sample files", rounds: 12, make: files::damaged_sample },
    Kind { name: "sound files", rounds: 40, make: files::sound },
    Kind { name: "chunks with flipped bits", rounds: 60, make: chunks::flipped },
    Kind { name: "chunks with a zero tail", rounds: 30, make: chunks::zero_tailed },
    Kind { name: "second sizes that disagree", rounds: 30, make: chunks::wrong_second_sizes },
    Kind { name: "first sizes that disagree", rounds: 30, make: chunks::wrong_first_sizes },
    Kind { name: "overlapping records", rounds: 60, make: chunks::overlapping },
    Kind { name: "records below 512", rounds: 40, make: chunks::low_records },
    Kind { name: "garbage headers", rounds: 20, make: chunks::garbage_header },
    Kind { name: "sizes at the bounds", rounds: 60, make: chunks::bound_sizes },
    Kind { name: "records at the last byte", rounds: 60, make: chunks::last_byte },
    Kind { name: "chunk header fields", rounds: 300, make: headers::chunk_fields },
    Kind { name: "file header fields", rounds: 600, make: headers::file_fields },
    Kind { name: "several wrong chunk fields", rounds: 32, make: headers::chunk_field_sets },
    Kind { name: "several wrong file header fields", rounds: 64, make: headers::file_field_sets },
    Kind { name: "every bit of a file header", rounds: 1_100, make: headers::file_header_bit },
    Kind { name: "every bit of a chunk header", rounds: 4_200, make: headers::chunk_header_bit },
    Kind { name: "lengths one off", rounds: 12, make: headers::lengths_one_off },
    Kind { name: "dense chunks", rounds: 12, make: chunks::dense },
    Kind { name: "chunks of smallest records", rounds: 2, make: chunks::smallest_records },
    Kind { name: "one largest record", rounds: 4, make: chunks::largest_record },
    Kind { name: "random bytes", rounds: 20, make: loose::random_bytes },
    Kind { name: "short loose bytes", rounds: 2_000, make: loose::short_bytes },
    Kind { name: "loose bytes of every short length", rounds: 90, make: loose::short_record },
    Kind { name: "loose bytes cut in a record", rounds: 80, make: loose::cut_in_a_record },
    Kind { name: "loose bytes of several chunks", rounds: 20, make: loose::long_bytes },
    Kind { name: "loose bytes around the limit", rounds: 6, make: loose::at_the_limit },
    Kind { name: "record numbers around 2^48", rounds: 80, make: chunks::bound_numbers },
    Kind { name: "a record or a 2a in zeros", rounds: 101, make: loose::in_zeros },
];

/// Hands every case to `use_case` until one differs. Answers how many there were.
pub fn for_each(
    base: u64,
    use_case: &mut dyn FnMut(&Case) -> Outcome,
) -> Result<usize, (Case, Difference)> {
    let mut count = 0;
    for (kind, seed, round) in rounds(&KINDS, base) {
        let inputs = (kind.make)(&mut Random::new(seed), round);
        for (part, input) in inputs.into_iter().enumerate() {
            let Input { bytes, behind, calls } = input;
            let case = Case { kind: kind.name, seed, part, bytes, behind, calls };
            if let Err(difference) = use_case(&case) {
                return Err((case, difference));
            }
            count += 1;
        }
    }
    Ok(count)
}

/// One input for all calls.
fn one(bytes: Vec<u8>) -> Vec<Input> {
    with_behind(bytes, Vec::new())
}

fn with_behind(bytes: Vec<u8>, behind: Vec<u8>) -> Vec<Input> {
    vec![Input { bytes, behind, calls: Calls::All }]
}

/// The first bytes as an input, with the others behind them.
fn cut(mut bytes: Vec<u8>, length: usize) -> Vec<Input> {
    let behind = bytes.split_off(length);
    with_behind(bytes, behind)
}

fn checks_only(bytes: Vec<u8>) -> Vec<Input> {
    vec![Input { bytes, behind: Vec::new(), calls: Calls::Checks }]
}
