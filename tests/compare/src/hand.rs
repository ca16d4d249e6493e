//! Sizes of records and free-space offsets worked out by hand, to which both
//! readers are held.

use compare::headers::{self, FREE_SPACE_OFFSET};
use compare::records::{self, SIZE_IN_BYTES, SIZE_IN_CHUNK};
use compare::trial::Trial;
use log_writer::{chunk_with, frame, put, CHUNK};
use second_reader::{header, record};
use support::difference::{Difference, Outcome};
use support::tally::Tally;

/// A number, or that of the refusal.
type Number = Result<u64, u32>;

/// An input, an offset in it, and what the three calls answer.
pub struct ByHand {
    pub name: &'static str,
    pub bytes: Vec<u8>,
    offset: u64,
    in_chunk: Number,
    in_bytes: Number,
    free: Number,
}

pub fn compare(case: &ByHand, tally: &mut Tally) -> Outcome {
    let ByHand { bytes, offset, .. } = case;
    let mut trial = Trial::new(bytes, &[], 0, tally);
    headers::compare(&mut trial)?;
    records::compare(&mut trial, *offset)?;
    held(SIZE_IN_CHUNK, *offset, record::size_in_chunk(bytes, *offset), case.in_chunk)?;
    held(SIZE_IN_BYTES, *offset, record::size_in_bytes(bytes, *offset), case.in_bytes)?;
    held(FREE_SPACE_OFFSET, *offset, header::free_space_offset(bytes), case.free)
}

/// What both readers answer is the answer by hand.
fn held(call: &'static str, offset: u64, both: Number, hand: Number) -> Outcome {
    if both == hand {
        return Ok(());
    }
    let found = format!("both readers: {both:?}\nby hand:      {hand:?}");
    Err(Difference { call, asked: format!("offset {offset}"), found })
}

pub fn all() -> Vec<ByHand> {
    [in_chunks(), bounds_of_sizes(), second_sizes(), loose(), lengths(), free_spaces()]
        .into_iter()
        .flatten()
        .collect()
}

/// A chunk of zeros but for a record's frame, asked at the frame's offset.
fn framed(
    name: &'static str,
    at: usize,
    size: usize,
    in_chunk: Number,
    in_bytes: Number,
) -> ByHand {
    let mut bytes = vec![0; CHUNK];
    frame(&mut bytes, at, size);
    ByHand { name, bytes, offset: at as u64, in_chunk, in_bytes, free: Ok(0) }
}

fn in_chunks() -> Vec<ByHand> {
    let far = |offset: u64| ByHand { offset, ..framed("a far offset", 512, 28, Err(7), Err(7)) };
    let mut inner = framed("a record inside another", 512, 100, Ok(28), Ok(28));
    frame(&mut inner.bytes, 540, 28);
    let mut cases = vec![
        framed("a record at 511", 511, 28, Err(7), Ok(28)),
        framed("a record at 512", 512, 28, Ok(28), Ok(28)),
        framed("a record at 0", 0, 28, Err(7), Ok(28)),
        framed("a record at the chunk's end", 65_508, 28, Ok(28), Ok(28)),
        framed("a record that leaves the chunk", 65_509, 28, Err(7), Err(7)),
        ByHand { offset: 540, ..inner },
    ];
    cases.extend([511, 513, 65_536, (1 << 16) + 512, (1 << 32) + 512, (1 << 63) + 512].map(far));
    cases.extend([u64::MAX, u64::MAX - 27].map(far));
    cases
}

fn bounds_of_sizes() -> Vec<ByHand> {
    vec![
        framed("a size of 27", 512, 27, Err(7), Err(7)),
        framed("a size of 28", 512, 28, Ok(28), Ok(28)),
        framed("a size of 65,024", 512, 65_024, Ok(65_024), Ok(65_024)),
        framed("a size of 65,024, below 512", 511, 65_024, Err(7), Ok(65_024)),
        framed("a size of 65,024, from 513", 513, 65_024, Err(7), Err(7)),
        framed("a size of 65,025, below 512", 511, 65_025, Err(7), Err(7)),
    ]
}

/// A second size with a wrong byte, and a magic with one.
fn second_sizes() -> Vec<ByHand> {
    let wrong = |name: &'static str, at: usize| {
        let mut case = framed(name, 512, 28, Err(7), Err(7));
        case.bytes[at] ^= 1;
        case
    };
    let last = (536..540).map(|at| wrong("a wrong second size", at));
    let magic = (512..516).map(|at| wrong("a wrong magic", at));
    last.chain(magic).collect()
}

/// Loose bytes of any length that holds a record of `size` at `at`.
fn loose_record(name: &'static str, length: usize, at: usize, size: usize) -> ByHand {
    let mut bytes = vec![0; length];
    frame(&mut bytes, at, size);
    let (offset, size) = (at as u64, size as u64);
    ByHand { name, bytes, offset, in_chunk: Err(1), in_bytes: Ok(size), free: Err(1) }
}

fn loose() -> Vec<ByHand> {
    let refused = |number: u32, case: ByHand| ByHand { in_bytes: Err(number), ..case };
    let mut cut = loose_record("the smallest record without its last byte", 28, 0, 28);
    cut.bytes.pop();
    let none = ByHand { bytes: Vec::new(), ..loose_record("no bytes", 28, 0, 28) };
    let last = |length| loose_record("the most bytes, and one more", length, 16_777_188, 28);
    vec![
        loose_record("the smallest record", 28, 0, 28),
        refused(7, cut),
        refused(7, none),
        loose_record("a size of 65,024 in loose bytes", 70_000, 0, 65_024),
        refused(7, loose_record("a size of 65,025 in loose bytes", 70_000, 0, 65_025)),
        last(16_777_216),
        refused(1, last(16_777_217)),
    ]
}

/// Chunks that lack a byte, or have one too many.
fn lengths() -> Vec<ByHand> {
    vec![
        loose_record("65,535 bytes", 65_535, 512, 28),
        framed("65,536 bytes", 512, 28, Ok(28), Ok(28)),
        loose_record("65,537 bytes", 65_537, 512, 28),
    ]
}

/// What stands at 48, whatever the header holds beside it.
fn free_spaces() -> Vec<ByHand> {
    let stated = |name: &'static str, bytes: [u8; 4], free: u64| {
        let mut chunk = chunk_with(0, &[0xff; 128]);
        put(&mut chunk, 48, &bytes);
        ByHand {
            name,
            bytes: chunk,
            offset: 512,
            in_chunk: Err(7),
            in_bytes: Err(7),
            free: Ok(free),
        }
    };
    let mut short = stated("a free-space offset in 65,535 bytes", [0, 2, 0, 0], 512);
    short.bytes.pop();
    vec![
        stated("free space from 0 on", [0, 0, 0, 0], 0),
        stated("free space from 512 on", [0, 2, 0, 0], 512),
        stated("free space from 65,536 on", [0, 0, 1, 0], 65_536),
        stated("free space far outside", [1, 2, 3, 4], 67_305_985),
        stated("free space at the last offset of 32 bits", [0xff; 4], 4_294_967_295),
        ByHand { in_chunk: Err(1), free: Err(1), ..short },
    ]
}
