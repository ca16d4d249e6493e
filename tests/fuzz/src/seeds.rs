//! The inputs that a fuzzer begins with: the records of the chunks that inputs
//! are laid over, generated questions, headers, sizes at the bounds, loose bytes,
//! streams with stores, indexes, and EVT logs.

mod evt;

use crate::form::{pieces, Calls, Form, Head, CALLS, HEADER_SEALED, LONG, SEALED, SHORT};
use crate::packets::STATED;
use crate::{bases, LONGEST};
use compare_text::generated;
use compare_text::hand;
use log_writer::{chunk_with, frame, put, record, Random, CHUNK, DATA};
use second_reader::index::{build, ENTRY_LENGTH};
use second_reader::record::{record_stretch, search_chunk};
use support::generate::{dense_bytes, sound_file_header};

const SEED: u64 = 0x0065_7674_7800_0007;
/// One of so many generated questions becomes a seed.
const ONE_OF: usize = 40;
const LOOSE: usize = 60;
/// The room beside those that follow from a text's length; a small one costs less.
const ROOM: usize = 400;

/// All seeds, none longer than a fuzzer's inputs.
pub fn all() -> Vec<Vec<u8>> {
    let mut seeds = records();
    seeds.extend(questions());
    seeds.extend(headers());
    seeds.extend(bounds());
    seeds.extend(loose());
    seeds.extend(streams());
    seeds.extend(indexes());
    seeds.extend(numbers());
    seeds.extend(evt::all());
    seeds.retain(|seed| seed.len() <= LONGEST);
    seeds
}

fn head(form: Form, base: usize, calls: Calls) -> Head {
    Head { form, base: base as u8, flags: 0, calls, offset: DATA as u64, room: ROOM }
}

/// Every record of every base, as the binary XML of a record at its offset.
fn records() -> Vec<Vec<u8>> {
    let mut seeds = Vec::new();
    for (number, chunk) in bases::all().iter().enumerate() {
        let offsets = search_chunk(chunk, usize::MAX).expect("a full chunk and any room");
        for offset in offsets.into_iter().map(u64::from) {
            let stretch = record_stretch(chunk, offset).expect("a record that the search listed");
            let (from, length) = (stretch.offset as usize, stretch.length as usize);
            let head = Head { offset, ..head(Form::Record, number, Calls::Record) };
            seeds.push(head.input(&chunk[from..from + length]));
        }
    }
    seeds
}

/// The questions by hand and some of the generated ones, as pieces of a chunk of
/// zeros. Its header is left out, which the text does not look at.
fn questions() -> Vec<Vec<u8>> {
    let mut turn = 0;
    let mut seeds = Vec::new();
    let mut take = |chunk: &[u8], offset: u64| {
        turn += 1;
        if turn % ONE_OF == 0 && chunk.len() == CHUNK && offset < 1 << 16 {
            let head = Head { offset, ..head(Form::Pieces, 0, Calls::Record) };
            seeds.push(head.input(&pieces(chunk, DATA)));
        }
    };
    hand::all().for_each(|question| take(&question.chunk, question.offsets[0]));
    let never = generated::for_each(generated::SEED, &mut |question| {
        take(&question.chunk, question.offsets[0]);
        Ok::<(), ()>(())
    });
    assert!(never.is_ok());
    seeds
}

/// Headers of chunks and of files, with right checksums and lengths and not.
fn headers() -> Vec<Vec<u8>> {
    let mut random = Random::new(SEED);
    let file = sound_file_header(&mut random);
    let mut seeds = Vec::new();
    for flags in [0, SEALED, HEADER_SEALED, SHORT, LONG] {
        for (number, chunk) in bases::all().iter().enumerate() {
            let front = |calls| Head { flags, ..head(Form::Front, number, calls) };
            seeds.extend(CALLS.map(|calls| front(calls).input(&chunk[..DATA])));
            let little_room = Head { room: 3, ..front(Calls::Searches) };
            seeds.push(little_room.input(&chunk[..DATA]));
        }
        let head = Head { flags, ..head(Form::FileHeader, 0, Calls::Checks) };
        seeds.push(head.input(&file[..128]));
    }
    seeds
}

/// Records of the smallest and the largest size, and one byte beyond, from the
/// lowest offset and the one below it.
fn bounds() -> Vec<Vec<u8>> {
    let mut seeds = Vec::new();
    for size in [27, 28, 65_024, 65_025] {
        for offset in [DATA - 1, DATA] {
            let mut chunk = vec![0; CHUNK];
            frame(&mut chunk, offset, size);
            let asked = |calls| Head { offset: offset as u64, ..head(Form::Pieces, 0, calls) };
            seeds.extend(CALLS.map(|calls| asked(calls).input(&pieces(&chunk, 0))));
        }
    }
    seeds
}

fn loose() -> Vec<Vec<u8>> {
    let mut random = Random::new(SEED);
    let mut one = || {
        let length = random.below(600);
        let bytes = dense_bytes(&mut random, length);
        CALLS.map(|calls| Head { offset: 0, ..head(Form::Loose, 0, calls) }.input(&bytes))
    };
    (0..LOOSE).flat_map(|_| one()).collect()
}

/// Records of small sizes, right or with a wrong byte in the second one, with
/// others in them: cut in several ways, and held by a store in part.
fn streams() -> Vec<Vec<u8>> {
    let mut random = Random::new(SEED);
    let mut seeds = Vec::new();
    for size in [27, 28, 60, 100] {
        for wrong in 0..5 {
            let mut bytes = dense_bytes(&mut random, size + 40);
            frame(&mut bytes, 0, size);
            if wrong < 4 {
                bytes[size - 4 + wrong] ^= 1;
            }
            for (first, room) in [(0, 1), (5, 7), (size - 2, 1), (size, 400)] {
                let asked =
                    |calls| Head { offset: first as u64, room, ..head(Form::Loose, 0, calls) };
                seeds.push(asked(Calls::Packets).input(&bytes));
                let stated = stated(&mut random, first as u16);
                seeds.push(asked(Calls::Store).input(&[&stated, &bytes[..]].concat()));
            }
        }
    }
    seeds
}

/// The first entries of each base's index, without a byte, with a bit that has to
/// be zero, and with an entry twice.
fn indexes() -> Vec<Vec<u8>> {
    let mut seeds = Vec::new();
    for (number, chunk) in bases::all().iter().enumerate() {
        let mut index = build(chunk, usize::MAX).expect("small numbers and any room");
        index.truncate(4 * ENTRY_LENGTH);
        let asked = |position: u64, room: usize| Head {
            offset: position,
            room,
            ..head(Form::Loose, number, Calls::Entries)
        };
        seeds.push(asked(1, 55).input(&index));
        seeds.push(asked(4, 54).input(&index));
        seeds.push(asked(0, 55).input(&index[..index.len() - index.len().min(1)]));
        seeds.push(asked(7, 400).input(&index.repeat(2)));
        if let Some(last) = index.last_mut() {
            *last |= 1 << (number % 4);
        }
        seeds.push(asked(1, 55).input(&index));
    }
    seeds
}

/// Records with numbers at the bounds of an index, and an entry more behind the
/// first of them.
fn numbers() -> Vec<Vec<u8>> {
    const LARGEST: u64 = (1 << 48) - 1;
    let mut seeds = Vec::new();
    for numbers in [[0, LARGEST], [LARGEST, LARGEST + 1], [u64::MAX, 1]] {
        let records: Vec<u8> = numbers.iter().flat_map(|number| record(*number, &[])).collect();
        let chunk = chunk_with(DATA, &records);
        for (offset, room) in [(0, 22), (DATA as u64, 21), (DATA as u64, 22), (540, 22)] {
            let asked = Head { offset, room, ..head(Form::Pieces, 0, Calls::Index) };
            seeds.push(asked.input(&pieces(&chunk, DATA)));
        }
    }
    seeds
}

/// What the first bytes of a store say: how many were taken, where those that it
/// holds begin, and how many they are, inside the store and at its bounds.
fn stated(random: &mut Random, held: u16) -> [u8; STATED] {
    const MOST: u64 = 1 << 40;
    let near = MOST + 1 - random.below(140) as u64;
    let total = random.pick(&[u64::from(held), 0, 70_000, near, MOST + 1, 1 << 41]);
    let from = random.pick(&[0u16, 9, 300, 65_500, 65_520, 65_535]);
    let length = random.pick(&[held, held, held, 65_535]);
    let mut stated = [0; STATED];
    put(&mut stated, 0, &total.to_le_bytes());
    put(&mut stated, 8, &from.to_le_bytes());
    put(&mut stated, 10, &length.to_le_bytes());
    stated
}
