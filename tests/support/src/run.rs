//! A run of a comparing program: its inputs follow from a seed, and it fails where
//! the readers differ, or where a number was never answered.

use crate::seed::take_seed;
use crate::tally::Tally;
use std::process::ExitCode;

/// Compares with the seed that the program was given, or with this one. `compare`
/// answers how many inputs there were, if the readers agree on all of them.
pub fn run(
    seed: u64,
    expected: &[(&str, &[u32])],
    compare: impl FnOnce(u64, &mut Tally) -> Option<usize>,
) -> ExitCode {
    let seed = match take_seed(&mut std::env::args().skip(1).collect()) {
        Ok(given) => given.unwrap_or(seed),
        Err(error) => {
            println!("{error}");
            return ExitCode::FAILURE;
        }
    };
    let mut tally = Tally::default();
    let Some(inputs) = compare(seed, &mut tally) else { return ExitCode::FAILURE };
    print!("{tally}");
    if !tally.complete(expected) {
        return ExitCode::FAILURE;
    }
    println!("{inputs} inputs, {} answers, no difference", tally.total());
    ExitCode::SUCCESS
}
