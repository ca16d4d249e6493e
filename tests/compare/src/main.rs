//! Compares the first reader, through its C interface, with the second reader
//! on many inputs, and fails at the first difference.
//!
//! `compare [--seed NUMBER]`: the inputs follow from NUMBER, or from a fixed one.

mod cases;
mod fed;
mod hand;
mod hand_indexes;
mod hand_streams;
mod indexed;

use cases::{Calls, Case};
use compare::trial::Trial;
use compare::{headers, indexes, nexts, records, searches, streams};
use fed::Differing;
use std::path::Path;
use std::process::ExitCode;
use support::difference::{report, Difference, Origin, Outcome};
use support::offsets::worth_asking;
use support::run::run;
use support::tally::Tally;

/// What each call must have answered in the end.
const EXPECTED: [(&str, &[u32]); 17] = [
    ("evtx_check_file_header", &[0, 1, 2, 3, 4, 5]),
    ("evtx_check_chunk", &[0, 1, 2, 4, 5, 6]),
    (headers::FREE_SPACE_OFFSET, &[0, 1]),
    ("evtx_search_chunk", &[0, 1, 13]),
    ("evtx_search_bytes", &[0, 1, 13]),
    (streams::FEED, &[0, 1, 13, 14]),
    (streams::CLOSE, &[0, 1, 13, 14]),
    ("evtx_next_in_chunk", &[0, 1, 7]),
    ("evtx_next_in_bytes", &[0, 1, 7]),
    (records::SIZE_IN_CHUNK, &[0, 1, 7]),
    (records::SIZE_IN_BYTES, &[0, 1, 7]),
    ("evtx_record_stretch", &[0, 1, 7]),
    ("evtx_record_fields", &[0, 1, 7]),
    (indexes::BUILD, &[0, 1, 13, 15]),
    (indexes::ENTRY, &[0, 7, 16]),
    (indexes::FIND, &[0, 7, 16]),
    (indexes::ADD, &[0, 1, 7, 13, 15, 16]),
];

fn compare(case: &Case, tally: &mut Tally) -> Outcome {
    let mut trial = Trial::new(&case.bytes, &case.behind, case.seed, tally);
    headers::compare(&mut trial)?;
    if case.calls == Calls::Checks {
        return Ok(());
    }
    searches::compare(&mut trial)?;
    for offset in worth_asking(&case.bytes, case.seed) {
        nexts::compare(&mut trial, offset)?;
        records::compare(&mut trial, offset)?;
    }
    indexes::compare_chunk(&mut trial, case.seed)
}

/// Prints what differs, and leaves the input in the build folder.
fn report_input(difference: &Difference, origin: &Origin) {
    let path = concat!(env!("CARGO_MANIFEST_DIR"), "/../../target/compare-difference.bin");
    report(difference, origin, Path::new(path));
}

/// Asks for what was worked out by hand. Answers how many inputs there were, if all agree.
fn by_hand(tally: &mut Tally) -> Option<usize> {
    let cases = hand::all();
    for case in &cases {
        if let Err(difference) = hand::compare(case, tally) {
            let origin = Origin { kind: case.name, seed: 0, part: 0, bytes: &case.bytes };
            report_input(&difference, &origin);
            return None;
        }
    }
    let streams = hand_streams::all();
    for case in &streams {
        if let Err(difference) = hand_streams::compare(case, tally) {
            let origin = Origin { kind: case.name, seed: 0, part: 0, bytes: &case.bytes() };
            report_input(&difference, &origin);
            return None;
        }
    }
    let indexes = hand_indexes::all();
    for case in &indexes {
        if let Err(difference) = hand_indexes::compare(case, tally) {
            let origin = Origin { kind: case.name, seed: 0, part: 0, bytes: &case.bytes() };
            report_input(&difference, &origin);
            return None;
        }
    }
    Some(cases.len() + streams.len() + indexes.len())
}

/// Asks about what is generated. Answers how many inputs there were, if all agree.
fn generated(base: u64, tally: &mut Tally) -> Option<usize> {
    match cases::for_each(base, &mut |case| compare(case, tally)) {
        Ok(count) => Some(count),
        Err((case, difference)) => {
            let Case { kind, seed, part, bytes, .. } = &case;
            report_input(&difference, &Origin { kind, seed: *seed, part: *part, bytes });
            None
        }
    }
}

/// How many streams or indexes there were, if all agree.
fn reported(outcome: Result<usize, Differing>) -> Option<usize> {
    match outcome {
        Ok(count) => Some(count),
        Err(Differing { kind, seed, part, bytes, difference }) => {
            report_input(&difference, &Origin { kind, seed, part, bytes: &bytes });
            None
        }
    }
}

fn main() -> ExitCode {
    run(cases::SEED, &EXPECTED, |seed, tally| {
        let hand = by_hand(tally)?;
        let cases = generated(seed, tally)?;
        let fed = reported(fed::compare_all(seed, tally))?;
        let indexed = reported(indexed::compare_all(seed, tally))?;
        Some(hand + cases + fed + indexed)
    })
}
