//! Compares what both readers say of EVT logs, and fails at the first difference.
//!
//! `compare_evt [--seed NUMBER]`: the inputs follow from NUMBER, or from a fixed one.

use compare::evt::{self, EXPECTED};
use compare::trial::Trial;
use compare_evt::cases::{self, Case};
use compare_evt::hand::{self, ByHand, Call};
use compare_evt::offsets::worth_asking;
use std::path::Path;
use std::process::ExitCode;
use support::difference::{report, Difference, Origin, Outcome};
use support::run::run;
use support::tally::Tally;

/// All calls on one file.
fn compare(case: &Case, tally: &mut Tally) -> Outcome {
    let mut trial = Trial::new(&case.file, &case.behind, case.seed, tally);
    evt::compare(&mut trial, worth_asking(&case.file, case.seed))
}

/// Both readers answer what was worked out by hand.
fn compare_by_hand(case: &ByHand, tally: &mut Tally) -> Outcome {
    let mut trial = Trial::new(&case.file, &[], 0, tally);
    let call = match &case.call {
        Call::Header { room, due } => {
            evt::header(&mut trial, *room, due)?;
            evt::HEADER
        }
        Call::Record { offset, due } => {
            evt::record(&mut trial, *offset, *due)?;
            evt::RECORD
        }
        Call::Text { offset, room, due } => {
            evt::text(&mut trial, *offset, *room, due)?;
            evt::TEXT
        }
    };
    match case.wrong_second_answer() {
        Some(found) => Err(Difference { call, asked: case.name.to_string(), found }),
        None => Ok(()),
    }
}

/// Prints what differs, and leaves the file in the build folder.
fn report_file(difference: &Difference, kind: &str, seed: u64, bytes: &[u8]) {
    let path = concat!(env!("CARGO_MANIFEST_DIR"), "/../../target/compare-evt-difference.bin");
    report(difference, &Origin { kind, seed, part: 0, bytes }, Path::new(path));
}

/// Asks for what was worked out by hand. Answers how many cases there were, if all agree.
fn by_hand(tally: &mut Tally) -> Option<usize> {
    let cases = hand::all();
    for case in &cases {
        if let Err(difference) = compare_by_hand(case, tally) {
            report_file(&difference, case.name, 0, &case.file);
            return None;
        }
    }
    Some(cases.len())
}

/// Asks about what is generated. Answers how many files there were, if all agree.
fn generated(base: u64, tally: &mut Tally) -> Option<usize> {
    match cases::for_each(base, &mut |case| compare(case, tally)) {
        Ok(count) => Some(count),
        Err((case, difference)) => {
            report_file(&difference, case.kind, case.seed, &case.file);
            None
        }
    }
}

fn main() -> ExitCode {
    run(cases::SEED, &EXPECTED, |seed, tally| Some(by_hand(tally)? + generated(seed, tally)?))
}
