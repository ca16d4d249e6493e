//! Compares the texts, listings and indexes of the first reader with those of the
//! second reader and with answers worked out by hand, and fails at the first
//! difference.
//!
//! `compare_text [--seed NUMBER] [--long] [PROGRAM]`: PROGRAM is the one file of the
//! first reader's programs; `--long` adds cases that take many seconds; with a
//! seed, only what is generated is compared, and follows from it.

mod indexings;
mod listings;
mod program;
mod trial;

use compare::indexes::REFUSAL;
use compare::texts::{CALL, LENGTH_CALL};
use compare_text::files::{self, File};
use compare_text::question::Question;
use compare_text::{generated, hand};
use std::path::Path;
use std::process::ExitCode;
use support::difference::{report, Difference, Origin};
use support::seed::take_seed;
use support::tally::Tally;

/// What each call or kind of line must have answered in the end.
const EXPECTED: [(&str, &[u32]); 10] = [
    (CALL, &[0, 1, 7, 8, 9, 10, 11, 12, 13]),
    (LENGTH_CALL, &[0, 1, 7, 8, 9, 10, 11, 12]),
    (REFUSAL, &[0, 8, 9, 10, 11, 12, 13]),
    (listings::HEADER_LINE, &[0, 1, 2, 3, 4, 5]),
    (listings::CHUNK_LINE, &[0, 2, 4, 5, 6]),
    (listings::RECORD_LINE, &[0, 8, 9, 10, 11, 12, 13]),
    (indexings::INDEX_LINE, &[0, 1, 15]),
    (indexings::ENTRY_LINE, &[0, 8, 9, 10, 11, 12, 13]),
    (indexings::FOUND_LINE, &[0, 8, 13]),
    (indexings::TOLD_LINE, &[1, 15]),
];

/// Prints what differs, and leaves the input in the build folder.
fn report_input(difference: &Difference, origin: &Origin) {
    let path = concat!(env!("CARGO_MANIFEST_DIR"), "/../../target/compare-text-difference.bin");
    report(difference, origin, Path::new(path));
}

fn report_question(question: &Question, difference: &Difference) {
    let Question { name, seed, part, chunk, .. } = question;
    report_input(difference, &Origin { kind: name, seed: *seed, part: *part, bytes: chunk });
}

/// Asks for the texts worked out by hand. Answers whether all agree.
fn texts_by_hand(long: bool, tally: &mut Tally) -> bool {
    let long_ones = if long { hand::long() } else { Vec::new() };
    for question in hand::all().chain(long_ones) {
        if let Err(difference) = trial::compare(&question, tally) {
            report_question(&question, &difference);
            return false;
        }
    }
    true
}

/// Asks for the texts of generated chunks. Answers whether the readers agree.
fn texts(seed: u64, tally: &mut Tally) -> bool {
    match generated::for_each(seed, &mut |question| trial::compare(question, tally)) {
        Ok(()) => true,
        Err((question, difference)) => {
            report_question(&question, &difference);
            false
        }
    }
}

/// Runs the programs on whole logs. Answers whether their lines are those due.
fn programs(program: &Path, seed: Option<u64>, tally: &mut Tally) -> bool {
    let compare = &mut |file: &File| {
        listings::compare(program, file, tally)?;
        indexings::compare(program, file, tally)
    };
    let outcome = match seed {
        Some(seed) => files::generated::for_each(seed, compare),
        None => files::for_each(compare),
    };
    match outcome {
        Ok(()) => true,
        Err((file, difference)) => {
            let (kind, bytes) = (file.name.as_str(), file.bytes.as_slice());
            report_input(&difference, &Origin { kind, seed: file.seed, part: 0, bytes });
            false
        }
    }
}

/// Compares all, or what is generated from a seed. Answers whether the readers agree, and on enough.
fn compare(program: &Path, seed: Option<u64>, long: bool) -> bool {
    let mut tally = Tally::default();
    let agree = (seed.is_some() || texts_by_hand(long, &mut tally))
        && texts(seed.unwrap_or(generated::SEED), &mut tally)
        && programs(program, seed, &mut tally);
    if !agree {
        return false;
    }
    print!("{tally}");
    let complete = seed.is_some() || tally.complete(&EXPECTED);
    println!("{} answers, no difference", tally.total());
    complete
}

fn main() -> ExitCode {
    let mut arguments: Vec<String> = std::env::args().skip(1).collect();
    let seed = match take_seed(&mut arguments) {
        Ok(seed) => seed,
        Err(error) => {
            println!("{error}");
            return ExitCode::FAILURE;
        }
    };
    let long = arguments.first().is_some_and(|argument| argument == "--long");
    arguments.drain(..usize::from(long));
    let standing = concat!(env!("CARGO_MANIFEST_DIR"), "/../../target/bin/evtx_list");
    let program = arguments.first().map_or(standing, String::as_str);
    match compare(Path::new(program), seed, long) {
        true => ExitCode::SUCCESS,
        false => ExitCode::FAILURE,
    }
}
