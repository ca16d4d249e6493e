//! EVT logs by chance: what holds of all of them, and of their damage.

use log_writer::evt::*;
use log_writer::Random;

const SEED: u64 = 0x0065_7674_0000_0001;
/// Their bytes behind the header; most hold records that were not given up.
const LENGTHS: [usize; 6] = [40, 120, 300, 500, 900, 3_000];

fn logs() -> impl Iterator<Item = Service> {
    let random = &mut Random::new(SEED);
    let logs: Vec<_> = (0..600).map(|round| random_log(random, LENGTHS[round % 6])).collect();
    logs.into_iter()
}

/// Where the marks of trailers stand.
fn marks(file: &[u8]) -> Vec<usize> {
    let due = &trailer([0; 4])[..16];
    (HEADER..file.len()).filter(|at| get_round(file, *at, 16) == due).collect()
}

#[test]
fn a_seed_says_all() {
    let bytes = || logs().map(|log| log.dirty()).collect::<Vec<_>>();
    assert!(bytes() == bytes());
}

#[test]
fn records_and_trailer_stand_where_they_should() {
    for log in logs() {
        let file = log.closed();
        assert_eq!(marks(&file), [after(file.len(), log.end(), 4)]);
        assert_eq!(get_round(&file, log.end(), 40), end_record(log.numbers()));
        for Kept { offset, number, event } in log.kept() {
            let record = event.record(*number);
            assert_eq!(get_round(&file, *offset, record.len()), record);
        }
    }
}

/// Records and trailers that go on behind the header, fill words, records that were
/// given up, and logs without records are all among them.
#[test]
fn every_sort_of_log() {
    let (mut empty, mut given_up, mut filled, mut cut_record, mut cut_trailer) = (0, 0, 0, 0, 0);
    for log in logs() {
        let file = log.closed();
        let lengths = log.kept().map(|kept| (kept.offset, kept.event.record(0).len()));
        empty += usize::from(log.kept().count() == 0);
        given_up += usize::from(log.kept().next().is_some_and(|first| first.offset != HEADER));
        filled += usize::from(file.ends_with(&[0x27, 0, 0, 0]));
        cut_record += lengths.filter(|(offset, length)| offset + length > file.len()).count();
        cut_trailer += usize::from(log.end() + END_RECORD > file.len());
    }
    let counts = [empty, given_up, filled, cut_record, cut_trailer];
    assert!(counts.iter().all(|count| *count > 10), "{counts:?}");
}

#[test]
fn a_moved_log_has_the_same_parts() {
    for (log, by) in logs().zip(0..) {
        let file = moved(&log.dirty(), by);
        assert_eq!(file[..HEADER], log.dirty()[..HEADER]);
        for Kept { offset, number, event } in log.kept() {
            let record = event.record(*number);
            let place = after(file.len(), *offset, by);
            assert_eq!(get_round(&file, place, record.len()), record);
        }
    }
}

/// Just the bytes of the field change, and not to what they were.
#[test]
fn damage_of_a_field() {
    let random = &mut Random::new(SEED);
    for log in logs() {
        let file = log.dirty();
        for (at, width) in HEADER_FIELDS {
            let mut other = file.clone();
            wrong_header_field(random, &mut other, (at, width));
            assert!(other[at..at + width] != file[at..at + width]);
            other[at..at + width].copy_from_slice(&file[at..at + width]);
            assert!(other == file);
        }
        let Some(Kept { offset, event, .. }) = log.kept().last() else { continue };
        let last = second_length(event.record(0).len());
        let record = RECORD_FIELDS.into_iter().chain([last]).map(|field| (*offset, field));
        let end = END_RECORD_FIELDS.into_iter().map(|field| (log.end(), field));
        for (start, (at, width)) in record.chain(end) {
            let mut other = file.clone();
            wrong_field(random, &mut other, start, (at, width));
            let place = after(file.len(), start, at);
            assert!(get_round(&other, place, width) != get_round(&file, place, width));
            put_round(&mut other, place, &get_round(&file, place, width));
            assert!(other == file);
        }
    }
}

#[test]
fn trailers_too_many_and_too_few() {
    let random = &mut Random::new(SEED);
    for log in logs() {
        let file = log.dirty();
        let first = marks(&file)[0];
        for apart in [16, 17, 24, file.len() - HEADER - 16] {
            let mut other = file.clone();
            put_second_trailer(&mut other, first, apart);
            assert_eq!(marks(&other).len(), 2, "{apart} apart");
        }
        let mut other = file.clone();
        break_marks(random, &mut other, first);
        assert_eq!(marks(&other), []);
    }
}
