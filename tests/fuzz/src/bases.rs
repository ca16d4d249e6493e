//! The chunks and the file header that the bytes of an input are laid over.

use compare_text::generated::{seal, sound_chunk, Stock};
use log_writer::{file_header as written_header, Random, CHUNK, DATA, HEADER};
use std::sync::OnceLock;
use support::generate::seal_file_header;
use support::samples::{read_sample, SAMPLES};

const SEED: u64 = 0x0065_7674_7800_0006;
/// How many chunks are generated, each with names and definitions to point to.
const GENERATED: usize = 24;

/// A chunk of zeros, the full ones of the samples, generated ones, and a sound
/// one without records.
pub fn all() -> &'static [Vec<u8>] {
    static BASES: OnceLock<Vec<Vec<u8>>> = OnceLock::new();
    BASES.get_or_init(|| {
        let mut empty = vec![0; CHUNK];
        seal(&mut empty, DATA);
        [vec![vec![0; CHUNK]], of_samples(), generated(), vec![empty]].concat()
    })
}

pub fn base(number: u8) -> &'static [u8] {
    &all()[usize::from(number) % all().len()]
}

pub fn file_header() -> &'static [u8] {
    static SOUND: OnceLock<Vec<u8>> = OnceLock::new();
    SOUND.get_or_init(|| {
        let mut header = written_header();
        seal_file_header(&mut header);
        header
    })
}

fn of_samples() -> Vec<Vec<u8>> {
    let files = SAMPLES.map(|name| read_sample(&format!("{name}.evtx")));
    files.iter().flat_map(|file| file[HEADER..].chunks_exact(CHUNK)).map(<[u8]>::to_vec).collect()
}

fn generated() -> Vec<Vec<u8>> {
    let mut random = Random::new(SEED);
    let stock = Stock::of_boundaries();
    let mut one = || {
        let mut made = sound_chunk(&mut random, &stock, 12);
        let free = made.records.last().map_or(DATA, |placed| placed.offset + placed.size);
        seal(&mut made.chunk, free);
        made.chunk
    };
    (0..GENERATED).map(|_| one()).collect()
}
