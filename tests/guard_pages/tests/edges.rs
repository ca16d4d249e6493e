//! Every call of the C interface but those for streams and indexes, on memory at
//! the edge of a page that may not be touched, with the answers of the second
//! reader.

use first_reader::answers::{Answer, Fields, Found, Stretch, Text};
use first_reader::calls::evtx_search_bytes;
use guard_pages::fenced::{Edge, Fenced, EDGES};
use log_writer::{frame, plain, put, record_at, Random, Writer, CHUNK, DATA};
use second_reader::binxml::{record_text, text_length};
use second_reader::{header, record};
use std::collections::BTreeSet;
use std::os::unix::process::ExitStatusExt;
use std::process::Command;
use support::damage::*;
use support::generate::*;
use support::offsets::worth_asking;

const SEED: u64 = 0x0065_7674_7800_0004;
/// An entry of a list or bytes of an output that no answer holds.
const KEPT: u8 = 0xf9;

fn chunks(random: &mut Random) -> Vec<Vec<u8>> {
    let mut all = Vec::new();
    for round in 0..40 {
        let mut chunk = sound_chunk(random);
        match round % 5 {
            0 => (),
            1 => flip_bits(random, &mut chunk[DATA..], 300),
            2 => overlaps(random, &mut chunk[DATA..]),
            3 => put(&mut chunk, DATA, &dense_bytes(random, CHUNK - DATA)),
            // A record whose end is the chunk's, or that reaches out of it.
            _ => frame(&mut chunk, CHUNK - 28 - round % 3, 28 + round % 4),
        }
        all.push(chunk);
    }
    all
}

/// Inputs for all calls but the text: headers, chunks, and loose bytes of every
/// short length and of some odd longer ones.
fn inputs() -> Vec<Vec<u8>> {
    let random = &mut Random::new(SEED);
    let mut all = chunks(random);
    for _ in 0..30 {
        let mut header = sound_file_header(random);
        wrong_file_field(random, &mut header);
        all.push(header);
    }
    for length in [0, 1, 119, 127, 128, 4_095, 4_097, 65_535, 65_537] {
        let mut bytes = sound_file_header(random);
        bytes.resize(length, 0);
        all.push(bytes);
    }
    for length in 0..100 {
        let bytes = random_record(random, 28 + length % 9).repeat(4);
        all.push(bytes[..length].to_vec());
    }
    for _ in 0..60 {
        let length = random.below(9_000);
        all.push(dense_bytes(random, length));
    }
    all
}

/// At most `most` of the offsets worth asking for.
fn some_offsets(bytes: &[u8], most: usize) -> Vec<u64> {
    let offsets = worth_asking(bytes, SEED).into_iter().collect();
    Random::new(bytes.len() as u64).thin_out(offsets, most)
}

/// Hands each input at both edges to `ask`, and looks at it afterwards.
fn each_input(ask: fn(&[u8], &mut Fenced)) {
    for bytes in inputs() {
        for edge in EDGES {
            let mut input = Fenced::input(&bytes, edge);
            ask(&bytes, &mut input);
            assert!(input.now() == bytes && input.rest_kept());
        }
    }
}

#[test]
fn header_checks_and_free_space() {
    each_input(|bytes, input| {
        let expected = Answer::without_length(header::check_file_header(bytes));
        assert_eq!(first_reader::check_file_header(input), expected);
        let expected = Answer::without_length(header::check_chunk(bytes));
        assert_eq!(first_reader::check_chunk(input), expected);
        let expected: Found = header::free_space_offset(bytes).into();
        assert_eq!(first_reader::free_space_offset(input), expected);
    });
}

type First = fn(&mut Fenced, &mut Fenced) -> Answer;
type Second = fn(&[u8], usize) -> Result<Vec<u32>, u32>;

/// One search with each room around the count of records, and the list at both edges.
fn search(bytes: &[u8], input: &mut Fenced, first: First, second: Second) {
    let count = second(bytes, usize::MAX).map_or(0, |offsets| offsets.len());
    for room in BTreeSet::from([0, count.saturating_sub(1), count, count + 1, count + 77]) {
        for edge in EDGES {
            let mut list = Fenced::new(&vec![KEPT; 4 * room], edge);
            let (number, offsets) = match second(bytes, room) {
                Ok(offsets) => (0, offsets),
                Err(number) => (number, Vec::new()),
            };
            let expected = Answer { number, length: offsets.len() as u64 };
            assert_eq!(first(input, &mut list), expected);
            let front: Vec<u8> = offsets.iter().flat_map(|offset| offset.to_le_bytes()).collect();
            assert!(list.holds(&front, KEPT));
        }
    }
}

#[test]
fn searches() {
    each_input(|bytes, input| {
        search(bytes, input, first_reader::search_chunk, record::search_chunk);
        search(bytes, input, first_reader::search_bytes, record::search_bytes);
    });
}

#[test]
fn next_records() {
    each_input(|bytes, input| {
        for from in some_offsets(bytes, 60) {
            let expected: Found = record::next_in_chunk(bytes, from).into();
            assert_eq!(first_reader::next_in_chunk(input, from), expected);
            let expected: Found = record::next_in_bytes(bytes, from).into();
            assert_eq!(first_reader::next_in_bytes(input, from), expected);
        }
    });
}

#[test]
fn sizes_stretches_and_fields() {
    each_input(|bytes, input| {
        for offset in some_offsets(bytes, 120) {
            let expected: Answer = record::size_in_chunk(bytes, offset).into();
            assert_eq!(first_reader::size_in_chunk(input, offset), expected);
            let expected: Answer = record::size_in_bytes(bytes, offset).into();
            assert_eq!(first_reader::size_in_bytes(input, offset), expected);
            let expected: Stretch = record::record_stretch(bytes, offset).into();
            assert_eq!(first_reader::record_stretch(input, offset), expected);
            let expected: Fields = record::record_fields(bytes, offset).into();
            assert_eq!(first_reader::record_fields(input, offset), expected);
        }
    });
}

fn text(chunk: &[u8], input: &mut Fenced, offset: u64, room: usize, edge: Edge) {
    let mut out = Fenced::new(&vec![KEPT; room], edge);
    let (number, text) = match record_text(chunk, offset, room as u64) {
        Ok(text) => (0, text),
        Err(refusal) => (refusal.number, Vec::new()),
    };
    let expected = Text { number, length: text.len() as u64 };
    assert_eq!(first_reader::record_text(input, offset, &mut out), expected);
    assert!(out.holds(&text, KEPT) && input.now() == chunk && input.rest_kept());
}

/// Asks for the length of the text. Answers rooms that are none, odd, and around it.
fn rooms(chunk: &[u8], input: &mut Fenced, offset: u64) -> BTreeSet<usize> {
    let expected = text_length(chunk, offset).map_err(|refusal| refusal.number);
    assert_eq!(first_reader::text_length(input, offset), Text::from(expected));
    let mut rooms = BTreeSet::from([0, 1, 777, 65_536]);
    if let Ok(length) = expected {
        let length = (length as usize).min(1 << 20);
        rooms.extend([length.saturating_sub(1), length, length + 1]);
    }
    rooms
}

#[test]
fn texts() {
    let mut turn = 0;
    let mut asked = 0;
    let outcome = compare_text::generated::for_each(SEED, &mut |question| {
        turn += 1;
        if turn % 50 != 0 {
            return Ok::<(), ()>(());
        }
        for edge in EDGES {
            let mut input = Fenced::input(&question.chunk, edge);
            for offset in question.offsets.iter().take(12) {
                for room in rooms(&question.chunk, &mut input, *offset) {
                    for edge in EDGES {
                        text(&question.chunk, &mut input, *offset, room, edge);
                    }
                }
            }
        }
        asked += 1;
        Ok(())
    });
    assert!(outcome.is_ok() && asked > 300, "{asked} chunks of {turn}");
}

/// A record at the chunk's end whose last value is a string of so many bytes: four
/// more, the record's second size, stand between it and the page.
fn string_at_the_end(string: &[u8], attribute: bool) -> (Vec<u8>, u64) {
    let write = |w: &mut Writer| {
        let shown = |w: &mut Writer| w.substitution(0x0e, 0);
        let element = |w: &mut Writer| match attribute {
            true => w.with_attributes("P", |w| w.attribute("a", shown)),
            false => w.open("P", shown),
        };
        w.instance(element, &[plain(0x01, string)]);
    };
    let mut written = Writer::at(0);
    written.stream_header();
    write(&mut written);
    let offset = CHUNK - 28 - written.bytes.len();
    (record_at(offset, write), offset as u64)
}

fn ask_at_the_end(string: &[u8], attribute: bool) {
    let (chunk, offset) = string_at_the_end(string, attribute);
    for edge in EDGES {
        let mut input = Fenced::input(&chunk, edge);
        for room in rooms(&chunk, &mut input, offset) {
            EDGES.into_iter().for_each(|edge| text(&chunk, &mut input, offset, room, edge));
        }
    }
}

/// Strings of zeros, of even and odd sizes, with a unit that is not zero or none.
#[test]
fn strings_of_zeros() {
    for size in [0, 1, 2, 3, 4, 4_095, 4_096, 62_000, 62_001] {
        for first in [0, 0x41] {
            let string: Vec<u8> = [first].into_iter().chain([0; 62_001]).take(size).collect();
            [false, true].into_iter().for_each(|attribute| ask_at_the_end(&string, attribute));
        }
    }
}

#[test]
#[ignore = "it ends the program: a_byte_too_many_is_fatal starts it"]
fn told_a_byte_too_many() {
    let (input, mut list) = (Fenced::input(&[0; 4_096], Edge::Back), [0]);
    // Not safe, which is what is tried: the length is one more than is lent.
    unsafe { evtx_search_bytes(input.pointer(), 4_097, list.as_mut_ptr(), list.len()) };
}

/// A call that reads one byte beyond what is lent is seen.
#[test]
fn a_byte_too_many_is_fatal() {
    const SEGMENTATION_FAULT: i32 = 11;
    let program = std::env::current_exe().expect("the path of this program");
    let arguments = ["--exact", "told_a_byte_too_many", "--ignored"];
    let outcome = Command::new(program).args(arguments).output().expect("a run of this program");
    assert_eq!(outcome.status.signal(), Some(SEGMENTATION_FAULT));
}
