//! The calls for EVT logs, with file and output each at both edges of pages that may
//! not be touched, and the answers of the second reader.

use compare_evt::cases::{for_each, Case, SEED};
use compare_evt::offsets::worth_asking;
use first_reader::answers::{Answer, Seen, Text};
use guard_pages::fenced::{Fenced, EDGES};
use guard_pages::outputs::writes;
use log_writer::Random;
use second_reader::evt::Log;

/// One in so many of the files that the comparison has, and how many offsets of each.
const FILES: usize = 7;
const OFFSETS: usize = 40;

/// The header, and what stands at some offsets.
fn ask(file: &[u8], input: &mut Fenced, offsets: &[u64]) {
    let log = Log::of(file);
    let log = || log.as_ref().map_err(|number| *number);
    writes(&log().map(|log| log.header().to_vec()), &mut |out| {
        let Answer { number, length } = first_reader::evt_header(input, out);
        (number, length)
    });
    for offset in offsets {
        let due: Seen = log().and_then(|log| log.record(*offset)).into();
        assert_eq!(first_reader::evt_record(input, *offset), due);
        let due = log().and_then(|log| log.text(*offset)).map(String::into_bytes);
        writes(&due, &mut |out| {
            let Text { number, length } = first_reader::evt_text(input, *offset, out);
            (number, length)
        });
    }
}

/// At most so many offsets of a file, and every record's.
fn some_offsets(case: &Case) -> Vec<u64> {
    let all: Vec<u64> = worth_asking(&case.file, case.seed).into_iter().collect();
    let log = Log::of(&case.file);
    let is_record = |at: &&u64| log.as_ref().is_ok_and(|log| log.record(**at).is_ok());
    let mut offsets: Vec<u64> = all.iter().filter(is_record).copied().collect();
    offsets.extend(Random::new(case.seed).thin_out(all, OFFSETS));
    offsets
}

/// Files of the most bytes are left out, since every call on them takes long.
#[test]
fn files_at_both_edges() {
    let mut count = 0;
    let mut use_case = |case: &Case| -> Result<(), ()> {
        count += 1;
        if count % FILES != 0 || case.file.len() > 1 << 20 {
            return Ok(());
        }
        let offsets = some_offsets(case);
        for edge in EDGES {
            let mut input = Fenced::input(&case.file, edge);
            ask(&case.file, &mut input, &offsets);
            assert!(input.now() == case.file && input.rest_kept());
        }
        Ok(())
    };
    assert!(for_each(SEED, &mut use_case).is_ok());
}

/// Of whole pages both ends stand at an edge.
#[test]
fn files_of_whole_pages() {
    let log = log_writer::evt::random_log(&mut Random::new(SEED), 3 * 4_096 - 48);
    for by in [0, 1, 2, 61, 5_000, 12_000] {
        let file = log_writer::evt::moved(&log.dirty(), by);
        let case = Case { kind: "whole pages", seed: by as u64, file, behind: Vec::new() };
        let mut input = Fenced::input(&case.file, EDGES[0]);
        ask(&case.file, &mut input, &some_offsets(&case));
        assert!(input.now() == case.file && input.rest_kept());
    }
}
