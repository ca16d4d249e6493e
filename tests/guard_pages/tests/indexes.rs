//! The calls for indexes, with chunk, index and output each at both edges of
//! pages that may not be touched, and the answers of the second reader.

use first_reader::answers::{Answer, Entry};
use guard_pages::fenced::{Fenced, EDGES};
use guard_pages::outputs;
use log_writer::{frame, put, Random, CHUNK, DATA};
use second_reader::index::{Index, Records, ENTRY_LENGTH};
use second_reader::record::search_chunk;
use std::collections::BTreeSet;
use support::damage::overlaps;
use support::difference::Due;
use support::generate::{dense_bytes, sound_chunk};

const SEED: u64 = 0x0065_7674_7800_0012;

/// The call answers number and length, and writes what is due.
fn writes(due: &Due, call: &mut dyn FnMut(&mut Fenced) -> Answer) {
    outputs::writes(due, &mut |out| {
        let Answer { number, length } = call(out);
        (number, length)
    });
}

fn kept(memory: &Fenced, bytes: &[u8]) {
    assert!(memory.now() == bytes && memory.rest_kept());
}

fn build(chunk: &[u8]) -> Due {
    let due = Records::of(chunk).and_then(|records| records.built(usize::MAX));
    for edge in EDGES {
        let mut input = Fenced::input(chunk, edge);
        writes(&due, &mut |out| first_reader::index_build(&mut input, out));
        kept(&input, chunk);
    }
    due
}

fn add(chunk: &[u8], index: &[u8]) {
    let due = Records::of(chunk).and_then(|records| records.added(index, usize::MAX));
    for chunk_edge in EDGES {
        for index_edge in EDGES {
            let mut input = Fenced::input(chunk, chunk_edge);
            let mut lent = Fenced::input(index, index_edge);
            writes(&due, &mut |out| first_reader::index_add(&mut input, &mut lent, out));
            kept(&input, chunk);
            kept(&lent, index);
        }
    }
}

/// Entries by position and by number, at both edges.
fn read(index: &[u8]) {
    let second = Index::of(index);
    let count = (index.len() / ENTRY_LENGTH) as u64;
    let entries = second.as_ref().map_or(&[][..], Index::entries);
    let ends = entries.first().into_iter().chain(entries.last());
    let numbers = ends.map(|entry| entry.record_number).chain([0, 7, 1 << 48, u64::MAX]);
    for edge in EDGES {
        let mut lent = Fenced::input(index, edge);
        for position in [0, count / 2, count.wrapping_sub(1), count, count + 1, 1 << 32] {
            let due = second.as_ref().map_err(|number| *number);
            let due: Entry = due.and_then(|index| index.entry(position)).into();
            assert_eq!(first_reader::index_entry(&mut lent, position), due);
        }
        for number in numbers.clone() {
            let due = second.as_ref().map_err(|refused| *refused);
            let due: Entry = due.and_then(|index| index.find(number)).into();
            assert_eq!(first_reader::index_find(&mut lent, number), due);
        }
        kept(&lent, index);
    }
}

/// Chunks of any records; the numbers of most are cut to 48 bits, so that they
/// have an index.
fn chunks() -> Vec<Vec<u8>> {
    let random = &mut Random::new(SEED);
    let mut all = Vec::new();
    for round in 0..40 {
        let mut chunk = sound_chunk(random);
        match round % 4 {
            0 => (),
            1 => overlaps(random, &mut chunk[DATA..]),
            2 => put(&mut chunk, DATA, &dense_bytes(random, CHUNK - DATA)),
            // A record whose end is the chunk's.
            _ => frame(&mut chunk, CHUNK - 28, 28),
        }
        if round % 10 < 9 {
            for offset in search_chunk(&chunk, usize::MAX).expect("a full chunk") {
                put(&mut chunk, offset as usize + 14, &[0, 0]);
            }
        }
        all.push(chunk);
    }
    all
}

#[test]
fn indexes_of_chunks() {
    let mut built = 0;
    for chunk in chunks() {
        let Ok(index) = build(&chunk) else { continue };
        built += 1;
        read(&index);
        let count = index.len() / ENTRY_LENGTH;
        for step in BTreeSet::from([0, 1.min(count), count / 2, count.saturating_sub(1), count]) {
            add(&chunk, &index[..ENTRY_LENGTH * step]);
        }
    }
    assert!(built > 30, "{built} indexes");
}

/// So many bytes, of which those that end an entry have zero bits.
fn entries(random: &mut Random, length: usize) -> Vec<u8> {
    let mut index = random.bytes(length);
    index.iter_mut().skip(10).step_by(ENTRY_LENGTH).for_each(|byte| *byte &= 0xf0);
    index
}

#[test]
fn indexes_of_any_bytes() {
    let random = &mut Random::new(SEED);
    let chunk = &chunks()[0];
    // 11 pages are 4,096 entries: both ends of the index stand at an edge.
    let long = [4_094, 4_096, 4_103, 25_542, 11 * 4_096, 70_004, 110_000];
    for length in (0..60).chain(long) {
        let mut index = entries(random, length);
        read(&index);
        add(chunk, &index);
        if let Some(last) = index.last_mut() {
            *last |= 1;
            read(&index);
            add(chunk, &index);
        }
    }
}

#[test]
fn lengths_that_are_refused() {
    for length in [0, 1, 512, 4_096, CHUNK - 1, CHUNK + 1, 2 * CHUNK] {
        let bytes = vec![0x2a; length];
        assert_eq!(build(&bytes), Err(1));
        for index in [&[][..], &[0; 10], &[0; 11], &[0xff; 22]] {
            add(&bytes, index);
        }
    }
}
