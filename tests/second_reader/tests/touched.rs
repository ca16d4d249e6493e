//! The bytes that a reading touches, and that no answer depends on any other
//! byte of the chunk; and that any bytes at all are answered.

mod common;

use common::*;
use log_writer::*;
use second_reader::binxml::{read_record, record_text};
use second_reader::listing::listing;
use second_reader::record::{next_in_chunk, search_chunk};

fn touched(chunk: &[u8]) -> Vec<(usize, usize)> {
    read_record(chunk, 512, 0).touched
}

#[test]
fn no_reading_touches_nothing() {
    let chunk = chunk_with(512, &record(1, &[]));
    assert!(read_record(&chunk, 513, 0).touched.is_empty());
    assert!(read_record(&chunk[1..], 512, 0).touched.is_empty());
    assert_eq!(touched(&chunk), [(512, 540)]);
}

/// A record at 512 with 18 bytes of binary XML, whose instance points to
/// `pointer`; a definition of `size` bytes of data stands at 40,000.
fn pointing(pointer: usize, size: u32) -> Vec<u8> {
    let mut chunk = chunk_of(&body(|w| w.pointing(pointer, &[])));
    put_u32(&mut chunk, 40_020, size);
    chunk
}

#[test]
fn definitions() {
    let own = (512, 512 + 28 + 18);
    assert_eq!(touched(&pointing(40_000, 5)), [own, (40_000, 40_029)]);
    assert_eq!(touched(&pointing(40_000, 25_512)), [own, (40_000, 65_536)]);
    assert_eq!(touched(&pointing(40_000, 25_513)), [own, (40_000, 40_024)]);
    assert_eq!(touched(&pointing(65_512, 0)), [own, (65_512, 65_536)]);
    assert_eq!(touched(&pointing(65_513, 0)), [own]);
    assert_eq!(touched(&pointing(511, 0)), [own]);
}

#[test]
fn definitions_before_a_later_refusal() {
    let mut chunk = pointing(40_000, 5);
    put_u32(&mut chunk, 550, 257);
    assert_eq!(record_text(&chunk, 512, 0).unwrap_err().number, 12);
    assert_eq!(touched(&chunk), [(512, 558), (40_000, 40_029)]);
}

/// A record whose element's name is pointed to at `pointer`; a name of `count`
/// units stands at 40,000.
fn named(pointer: usize, count: u16) -> Vec<u8> {
    let mut chunk = chunk_of(&body(|w| {
        w.element(0x01, |w| {
            w.pointer(pointer);
            w.token(0x03);
        });
    }));
    put(&mut chunk, 40_006, &count.to_le_bytes());
    chunk
}

#[test]
fn names() {
    let own = (512, 512 + 28 + 16);
    assert_eq!(touched(&named(40_000, 3)), [own, (40_000, 40_016)]);
    assert_eq!(touched(&named(40_000, 12_763)), [own, (40_000, 65_536)]);
    assert_eq!(touched(&named(40_000, 12_764)), [own, (40_000, 40_008)]);
    assert_eq!(touched(&named(65_526, 0)), [own, (65_526, 65_536)]);
    assert_eq!(touched(&named(65_528, 0)), [own, (65_528, 65_536)]);
    assert_eq!(touched(&named(65_529, 0)), [own]);
    assert_eq!(touched(&named(511, 0)), [own]);
}

/// The chunks of the sample logs.
fn sample_chunks() -> Vec<Vec<u8>> {
    let mut chunks = Vec::new();
    for name in ["panel", "windows", "powercut"] {
        let log = read_sample(&format!("{name}.evtx"));
        chunks.extend(log[4_096..].chunks_exact(65_536).map(<[u8]>::to_vec));
    }
    chunks
}

/// The chunk with every byte that is not touched replaced.
fn others_replaced(chunk: &[u8], touched: &[(usize, usize)], random: &mut Random) -> Vec<u8> {
    let mut other = random.bytes(65_536);
    for (start, end) in touched {
        other[*start..*end].copy_from_slice(&chunk[*start..*end]);
    }
    other
}

/// Flips some bits between `start` and `end`.
fn damage(chunk: &mut [u8], start: usize, end: usize, random: &mut Random) {
    for _ in 0..random.below(4) {
        let at = start + random.below(end - start);
        chunk[at] ^= 1 << random.below(8);
    }
}

#[test]
fn answers_depend_on_touched_bytes_only() {
    let mut random = Random::new(1);
    let chunks = sample_chunks();
    for _ in 0..300 {
        let mut chunk = chunks[random.below(chunks.len())].clone();
        let Ok(offset) = next_in_chunk(&chunk, random.below(30_000) as u64) else { continue };
        let at = offset as usize;
        damage(&mut chunk, at + 24, (at + 400).min(65_536), &mut random);
        damage(&mut chunk, 512, 3_000, &mut random);
        let reading = read_record(&chunk, offset, 3_000);
        let other = others_replaced(&chunk, &reading.touched, &mut random);
        let again = read_record(&other, offset, 3_000);
        assert_eq!(reading.length, again.length);
        assert_eq!(reading.text, again.text);
        assert_eq!(reading.touched, again.touched);
    }
}

#[test]
fn any_bytes_are_answered() {
    let mut random = Random::new(2);
    let chunks = sample_chunks();
    let mut reached = [0; 14];
    for _ in 0..3_000 {
        let mut chunk = chunks[random.below(chunks.len())].clone();
        let offset = next_in_chunk(&chunk, random.below(9_000) as u64).unwrap();
        let at = offset as usize;
        damage(&mut chunk, at + 24, at + 80, &mut random);
        damage(&mut chunk, 512, 2_000, &mut random);
        let number = match record_text(&chunk, offset, random.below(2_000) as u64) {
            Ok(_) => 0,
            Err(refusal) => refusal.number as usize,
        };
        reached[number] += 1;
    }
    for number in [0, 7, 8, 9, 10, 11, 12, 13] {
        assert!(reached[number] > 0, "{number} was never answered: {reached:?}");
    }
}

#[test]
fn damaged_files_are_listed() {
    let mut random = Random::new(3);
    let log = read_sample("windows.evtx");
    for _ in 0..10 {
        let mut file = log.clone();
        for _ in 0..60 {
            let length = file.len();
            damage(&mut file, 0, length, &mut random);
        }
        file.truncate(random.below(file.len()));
        let lines = listing(&file);
        assert!(lines.starts_with(b"header ") && lines.ends_with(b"\n"));
        for chunk in file[4_096.min(file.len())..].chunks_exact(65_536) {
            assert!(search_chunk(chunk, 2_322).is_ok());
        }
    }
}
