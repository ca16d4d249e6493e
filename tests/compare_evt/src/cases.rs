//! The inputs of the comparison: each kind makes inputs from a seed, and the seeds
//! follow from one number.

mod damaged;
mod lengths;
mod logs;
mod strings;

use log_writer::Random;
use support::kinds::{rounds, Kind};

/// The number for a run that is given none.
pub const SEED: u64 = 0x0065_7674_7800_0005;

/// A file, and how it came about.
pub struct Case {
    pub kind: &'static str,
    pub seed: u64,
    pub file: Vec<u8>,
    /// What stands in memory after the lent bytes.
    pub behind: Vec<u8>,
}

/// A file, and what stands in memory after it.
type Input = (Vec<u8>, Vec<u8>);

/// Makes an input from random numbers and the number of the round.
type Make = fn(&mut Random, usize) -> Input;

const KINDS: [Kind<Make>; 20] = [
    Kind { name: "logs as the service writes them", rounds: 200, make: logs::written },
    Kind { name: "moved logs", rounds: 200, make: logs::moved_by_chance },
    Kind { name: "trailers at the last offsets", rounds: 80, make: logs::trailer_at_the_end },
    Kind { name: "records cut after each byte", rounds: 240, make: logs::record_at_the_end },
    Kind { name: "logs of 64 KiB", rounds: 6, make: logs::long },
    Kind { name: "header fields", rounds: 240, make: damaged::header_field },
    Kind { name: "every bit of a header", rounds: 768, make: damaged::header_bit },
    Kind { name: "record fields", rounds: 510, make: damaged::record_field },
    Kind { name: "trailer fields", rounds: 200, make: damaged::trailer_field },
    Kind { name: "no trailer", rounds: 60, make: damaged::no_trailer },
    Kind { name: "two trailers", rounds: 200, make: damaged::two_trailers },
    Kind { name: "flipped bits", rounds: 200, make: damaged::flipped },
    Kind { name: "crowded bytes", rounds: 300, make: damaged::crowded },
    Kind { name: "strings by chance", rounds: 400, make: strings::by_chance },
    Kind { name: "first strings at every offset", rounds: 270, make: strings::every_offset },
    Kind { name: "as many strings as can be", rounds: 6, make: strings::most },
    Kind { name: "records of every short length", rounds: 200, make: lengths::records },
    Kind { name: "records of the longest length", rounds: 200, make: lengths::longest_records },
    Kind { name: "files of every short length", rounds: 400, make: lengths::files },
    Kind { name: "files around the limit", rounds: 6, make: lengths::at_the_limit },
];

/// Hands every case to `use_case` until one fails. Answers how many there were.
pub fn for_each<E>(
    base: u64,
    use_case: &mut dyn FnMut(&Case) -> Result<(), E>,
) -> Result<usize, (Case, E)> {
    let mut count = 0;
    for (kind, seed, round) in rounds(&KINDS, base) {
        let (file, behind) = (kind.make)(&mut Random::new(seed), round);
        let case = Case { kind: kind.name, seed, file, behind };
        if let Err(error) = use_case(&case) {
            return Err((case, error));
        }
        count += 1;
    }
    Ok(count)
}

/// A file with nothing special behind it.
fn alone(file: Vec<u8>) -> Input {
    (file, Vec::new())
}

#[cfg(test)]
mod tests {
    use super::*;
    use crate::offsets::worth_asking;
    use second_reader::evt::Log;
    use std::collections::BTreeMap;

    /// Each number is answered by the second reader, and by far not only once.
    #[test]
    fn every_number_is_reached() {
        let mut counts: BTreeMap<u32, usize> = BTreeMap::new();
        let mut note = |case: &Case| -> Result<(), ()> {
            let log = Log::of(&case.file);
            for offset in worth_asking(&case.file, case.seed) {
                let seen = log.as_ref().map_err(|number| *number).map(|log| log.record(offset));
                let number = seen.and_then(|seen| seen).err().unwrap_or(0);
                *counts.entry(number).or_default() += 1;
            }
            Ok(())
        };
        assert!(for_each(SEED, &mut note).is_ok());
        assert_eq!(counts.keys().copied().collect::<Vec<_>>(), [0, 1, 2, 17, 18]);
        assert!(counts[&0] > 4_000 && counts.values().all(|count| *count > 20), "{counts:?}");
    }
}
