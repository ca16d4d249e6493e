//! Calls for indexes with answers worked out by hand, to which both readers are
//! held.

use compare::indexes::{self, Due, ADD, BUILD, ENTRY, FIND};
use compare::trial::Trial;
use log_writer::*;
use second_reader::index::{self, Entry, Index, Placed};
use std::fmt::Debug;
use support::difference::{Difference, Outcome};
use support::tally::Tally;

/// The largest number that an entry has room for.
const LARGEST: u64 = 0xffff_ffff_ffff;

/// A call, and what is due.
enum Call {
    Build { room: usize, due: Due },
    Entry { position: u64, due: Result<Placed, u32> },
    Find { number: u64, due: Result<Placed, u32> },
    Add { room: usize, due: Due },
}

pub struct ByHand {
    pub name: &'static str,
    chunk: Vec<u8>,
    index: Vec<u8>,
    call: Call,
}

impl ByHand {
    /// The chunk, and the index behind it.
    pub fn bytes(&self) -> Vec<u8> {
        [&self.chunk[..], &self.index].concat()
    }
}

/// The second reader answers what is due.
fn held<T: PartialEq + Debug>(call: &'static str, case: &ByHand, second: T, due: &T) -> Outcome {
    if second == *due {
        return Ok(());
    }
    let found = format!("second reader: {second:?}\nby hand:       {due:?}");
    Err(Difference { call, asked: case.name.to_string(), found })
}

pub fn compare(case: &ByHand, tally: &mut Tally) -> Outcome {
    let ByHand { chunk, index, .. } = case;
    match &case.call {
        Call::Build { room, due } => {
            held(BUILD, case, index::build(chunk, *room), due)?;
            indexes::build(&mut Trial::new(chunk, &[], 0, tally), *room, due)
        }
        Call::Entry { position, due } => {
            held(ENTRY, case, index::entry(index, *position), due)?;
            indexes::entry(&mut Trial::new(index, &[], 0, tally), &Index::of(index), *position)
        }
        Call::Find { number, due } => {
            held(FIND, case, index::find(index, *number), due)?;
            indexes::find(&mut Trial::new(index, &[], 0, tally), &Index::of(index), *number)
        }
        Call::Add { room, due } => {
            held(ADD, case, index::add(chunk, index, *room), due)?;
            indexes::add(&mut Trial::new(chunk, &[], 0, tally), index, &[], *room, due)
        }
    }
}

pub fn all() -> Vec<ByHand> {
    let built = [lengths(), built_numbers(), built_rooms(), refusals(), listed()];
    let read = [fields(), index_lengths(), zero_bits(), positions(), found()];
    let added = [added(), added_rooms(), order()];
    built.into_iter().chain(read).chain(added).flatten().collect()
}

fn built(name: &'static str, chunk: Vec<u8>, room: usize, due: Due) -> ByHand {
    ByHand { name, chunk, index: Vec::new(), call: Call::Build { room, due } }
}

fn entry(name: &'static str, index: &[u8], position: u64, due: Result<Placed, u32>) -> ByHand {
    ByHand { name, chunk: Vec::new(), index: index.to_vec(), call: Call::Entry { position, due } }
}

fn find(name: &'static str, index: &[u8], number: u64, due: Result<Placed, u32>) -> ByHand {
    ByHand { name, chunk: Vec::new(), index: index.to_vec(), call: Call::Find { number, due } }
}

fn add(name: &'static str, chunk: &[u8], index: &[u8], room: usize, due: Due) -> ByHand {
    let call = Call::Add { room, due };
    ByHand { name, chunk: chunk.to_vec(), index: index.to_vec(), call }
}

/// A chunk of the smallest records with these numbers, from 512 on.
fn numbered(numbers: &[u64]) -> Vec<u8> {
    let records: Vec<u8> = numbers.iter().flat_map(|number| record(*number, &[])).collect();
    chunk_with(DATA, &records)
}

/// The entry of a smallest record: it has no binary XML, which is 8.
fn smallest(offset: u16, number: u8) -> [u8; 11] {
    let [high, low] = offset.to_be_bytes();
    [high, low, 0, 28, 0, 0, 0, 0, 0, number, 0x80]
}

fn placed(position: u64, offset: u64, record_number: u64) -> Result<Placed, u32> {
    Ok(Placed { position, entry: Entry { offset, size: 28, record_number, refusal: 8 } })
}

fn lengths() -> Vec<ByHand> {
    let chunk = |length: usize| {
        let mut chunk = numbered(&[1]);
        chunk.resize(length, 0);
        chunk
    };
    let due = smallest(512, 1).to_vec();
    vec![
        built("no chunk", chunk(0), 99, Err(1)),
        built("a chunk of 65,535 bytes", chunk(65_535), 99, Err(1)),
        built("a chunk of 65,536 bytes", chunk(65_536), 99, Ok(due.clone())),
        built("a chunk of 65,537 bytes", chunk(65_537), 99, Err(1)),
        add("no chunk to add from", &chunk(0), &[], 99, Err(1)),
        add("65,535 bytes to add from", &chunk(65_535), &[], 99, Err(1)),
        add("65,536 bytes to add from", &chunk(65_536), &[], 99, Ok(due)),
        add("65,537 bytes to add from", &chunk(65_537), &[], 99, Err(1)),
    ]
}

fn built_numbers() -> Vec<ByHand> {
    let entry = |number: [u8; 6]| [&[2, 0, 0, 28], &number[..], &[0x80]].concat();
    let one = |name, number: u64, due: Due| built(name, numbered(&[number]), 99, due);
    vec![
        one("the number 0", 0, Ok(entry([0; 6]))),
        one("the number 40,112", 40_112, Ok(entry([0, 0, 0, 0, 0x9c, 0xb0]))),
        one("all bytes of a number", 0x1234_5678_9abc, Ok(entry([18, 52, 86, 120, 154, 188]))),
        one("the number 2^48 - 1", LARGEST, Ok(entry([0xff; 6]))),
        one("the number 2^48", LARGEST + 1, Err(15)),
        one("the number 2^48 and more bits", LARGEST + 2, Err(15)),
        one("the number 2^63", 1 << 63, Err(15)),
        one("the number 2^64 - 1", u64::MAX, Err(15)),
        built("2^48 in the first record", numbered(&[LARGEST + 1, 1, 2]), 99, Err(15)),
        built("2^48 in the last record", numbered(&[1, 2, LARGEST + 1]), 99, Err(15)),
        built("2^48 and no room", numbered(&[1, 2, LARGEST + 1]), 0, Err(15)),
        built("2^48 and room for those before", numbered(&[1, 2, LARGEST + 1]), 22, Err(15)),
    ]
}

fn built_rooms() -> Vec<ByHand> {
    let two = [smallest(512, 1), smallest(540, 2)].concat();
    let full = numbered(&[0; 2_322]);
    let all: Vec<u8> = (0..2_322).flat_map(|at| smallest(512 + 28 * at, 0)).collect();
    let room = |name, room, due: Due| built(name, numbered(&[1, 2]), room, due);
    vec![
        room("no room for two entries", 0, Err(13)),
        room("room for one of two entries", 11, Err(13)),
        room("a byte too few for two entries", 21, Err(13)),
        room("room for two entries", 22, Ok(two.clone())),
        room("a byte more than two entries", 23, Ok(two)),
        built("no record and no room", vec![0; CHUNK], 0, Ok(Vec::new())),
        built("a byte too few for 2,322 entries", full.clone(), 25_541, Err(13)),
        built("room for 2,322 entries", full, 25_542, Ok(all)),
    ]
}

/// `depth` elements inside each other.
fn deep(w: &mut Writer, depth: usize) {
    match depth {
        1 => w.empty("e"),
        _ => w.open("e", |w| deep(w, depth - 1)),
    }
}

/// 7 bytes of tags, 13,105 times & as five bytes, and letters.
fn long_text(letters: usize) -> Vec<u8> {
    let text = "&".repeat(13_105) + &"a".repeat(letters);
    one_record(|w| w.open("P", |w| w.literal(&text)))
}

fn refusals() -> Vec<ByHand> {
    let cases = [
        ("a text", one_record(|w| w.empty("P")), 0),
        ("a text that is refused with 8", one_record(|w| w.put(&[0x99])), 8),
        ("9", one_record(|w| w.element(0x01, |w| w.pointer(511))), 9),
        ("10", one_record(|w| w.open("P", |w| w.substitution(0x0e, 7))), 10),
        ("11", one_record(|w| w.open("P", |w| w.put(&[0x05, 0x02, 0, 0]))), 11),
        ("elements 32 deep", one_record(|w| deep(w, 32)), 0),
        ("12", one_record(|w| deep(w, 33)), 12),
        ("a text of 65,536 bytes", long_text(4), 0),
        ("a text of 65,537 bytes", long_text(5), 13),
    ];
    let both = |(name, chunk, refusal): (&'static str, Vec<u8>, u8)| {
        let [high, low] = (get_u32(&chunk, DATA + 4) as u16).to_be_bytes();
        let due = vec![2, 0, high, low, 0, 0, 0, 0, 0, 1, refusal << 4];
        let added = add(name, &chunk, &[], 11, Ok(due.clone()));
        [built(name, chunk, 11, Ok(due)), added]
    };
    cases.into_iter().flat_map(both).collect()
}

/// A record inside another, one below 512 and one whose second size is
/// overwritten are not listed; the header is not looked at.
fn listed() -> Vec<ByHand> {
    let mut chunk = chunk_with(0, &[0xee; DATA]);
    frame(&mut chunk, 100, 28);
    frame(&mut chunk, 600, 100);
    put(&mut chunk, 640, &record(4, &[]));
    frame(&mut chunk, 65_480, 29);
    frame(&mut chunk, 65_508, 28);
    let first = [2, 88, 0, 100, 0, 0, 0, 0, 0, 0, 0x80];
    let both = [first, smallest(65_508, 0)].concat();
    let mut largest = vec![0; CHUNK];
    frame(&mut largest, 512, 65_024);
    vec![
        add("a record behind another with one in it", &chunk, &first, 99, Ok(both.clone())),
        add("no record behind the last", &chunk, &both, 99, Err(7)),
        built("records of which some are not listed", chunk, 99, Ok(both)),
        built("the largest record", largest, 99, Ok(vec![2, 0, 254, 0, 0, 0, 0, 0, 0, 0, 0x80])),
    ]
}

/// Entries whose fields all differ, and such as no chunk gives.
fn fields() -> Vec<ByHand> {
    let bytes = [0x12, 0x34, 0x56, 0x78, 0x9a, 0xbc, 0xde, 0xf0, 0x13, 0x57, 0xb0];
    let all = Entry { offset: 0x1234, size: 0x5678, record_number: 0x9abc_def0_1357, refusal: 11 };
    let most = Entry { offset: 65_535, size: 65_535, record_number: LARGEST, refusal: 15 };
    let none = Entry { offset: 0, size: 0, record_number: 0, refusal: 0 };
    let ones = [&[0xff; 10], &[0xf0][..]].concat();
    let first = |entry| Ok(Placed { position: 0, entry });
    vec![
        entry("all fields different", &bytes, 0, first(all)),
        find("all fields different, found", &bytes, 0x9abc_def0_1357, first(all)),
        entry("ones in every field", &ones, 0, first(most)),
        find("ones in every field, found", &ones, LARGEST, first(most)),
        entry("zeros in every field", &[0; 11], 0, first(none)),
        find("zeros in every field, found", &[0; 11], 0, first(none)),
    ]
}

fn index_lengths() -> Vec<ByHand> {
    let chunk = numbered(&[1, 2, 3]);
    let index = [smallest(512, 1), smallest(540, 2)].concat();
    let three = [&index[..], &smallest(568, 3)].concat();
    let mut cases = vec![
        entry("an entry of none", &[], 0, Err(7)),
        find("a number among none", &[], 0, Err(7)),
        add("an index of no bytes", &chunk, &[], 99, Ok(index[..11].to_vec())),
        entry("an index of 11 bytes", &index[..11], 0, placed(0, 512, 1)),
        find("a number in 11 bytes", &index[..11], 1, placed(0, 512, 1)),
        add("an index of 11 bytes, and one more", &chunk, &index[..11], 99, Ok(index.clone())),
        entry("an index of 22 bytes", &index, 1, placed(1, 540, 2)),
        find("a number in 22 bytes", &index, 2, placed(1, 540, 2)),
        add("an index of 22 bytes, and one more", &chunk, &index, 99, Ok(three)),
    ];
    for length in [1, 10, 12, 21] {
        let cut = &index[..length];
        cases.push(entry("an entry of no index", cut, 0, Err(16)));
        cases.push(entry("no entry of no index", cut, 9, Err(16)));
        cases.push(find("a number in no index", cut, 1, Err(16)));
        cases.push(add("no index to add to", &chunk, cut, 99, Err(16)));
    }
    cases
}

/// Each of the four bits in the first and in the last of three entries. The bit
/// above them is one of the refusal.
fn zero_bits() -> Vec<ByHand> {
    let chunk = numbered(&[1, 2, 3, 4]);
    let index = [smallest(512, 1), smallest(540, 2), smallest(568, 3)].concat();
    let mut cases = Vec::new();
    for at in [10, 32] {
        for bit in 0..4 {
            let mut wrong = index.clone();
            wrong[at] |= 1 << bit;
            for asked in [0, 2, 3] {
                cases.push(entry("a bit that is not zero", &wrong, asked, Err(16)));
                cases.push(find("a bit that is not zero, found", &wrong, asked + 1, Err(16)));
            }
            cases.push(add("a bit that is not zero, and one more", &chunk, &wrong, 99, Err(16)));
        }
        let mut other = index.clone();
        other[at] |= 0x10;
        let due = [&other[..], &smallest(596, 4)].concat();
        cases.push(entry("a bit of the refusal", &other, 1, placed(1, 540, 2)));
        cases.push(add("a bit of the refusal, and one more", &chunk, &other, 99, Ok(due)));
    }
    cases
}

fn positions() -> Vec<ByHand> {
    let index = [smallest(512, 1), smallest(540, 2), smallest(568, 3)].concat();
    let far = [3, 4, 1 << 16, (1 << 16) + 1, 1 << 32, (1 << 32) + 1, 1 << 63, u64::MAX];
    let there = [placed(0, 512, 1), placed(1, 540, 2), placed(2, 568, 3)];
    let is = there.into_iter().zip(0..).map(|(due, at)| entry("a position", &index, at, due));
    is.chain(far.map(|at| entry("a position behind the last", &index, at, Err(7)))).collect()
}

fn found() -> Vec<ByHand> {
    let numbers = [(512, 5), (540, 9), (568, 7), (596, 9), (624, 5)];
    let index: Vec<u8> = numbers.iter().flat_map(|(at, number)| smallest(*at, *number)).collect();
    let none = [0, 4, 6, 8, 10, LARGEST, LARGEST + 6, (1 << 63) + 5, u64::MAX];
    let mut cases = vec![
        find("the first of two", &index, 9, placed(1, 540, 9)),
        find("the first of two, at the front", &index, 5, placed(0, 512, 5)),
        find("the only one", &index, 7, placed(2, 568, 7)),
        find("the last", &index[..44], 9, placed(1, 540, 9)),
        find("the second of two, without the first", &index[22..], 9, placed(1, 596, 9)),
        find("at the end", &index[33..], 5, placed(1, 624, 5)),
    ];
    cases.extend(none.map(|number| find("a number of no entry", &index, number, Err(7))));
    cases
}

/// The first record beyond the last entry's offset, whatever stands before it.
fn added() -> Vec<ByHand> {
    let chunk = numbered(&[1, 2, 3]);
    let behind = |name, offsets: &[u16], due: Result<(u16, u8), u32>| {
        let index: Vec<u8> = offsets.iter().flat_map(|offset| smallest(*offset, 7)).collect();
        let due = due.map(|(offset, number)| [&index[..], &smallest(offset, number)].concat());
        add(name, &chunk, &index, 99, due)
    };
    let odd = [2, 0, 0, 0, 0xff, 0xff, 0xff, 0xff, 0xff, 0xff, 0xf0];
    let after_odd = [&odd[..], &smallest(540, 2)].concat();
    vec![
        behind("behind offset 0", &[0], Ok((512, 1))),
        behind("behind 511", &[511], Ok((512, 1))),
        behind("behind the first record", &[512], Ok((540, 2))),
        behind("behind a place in the first record", &[513], Ok((540, 2))),
        behind("just before the second record", &[539], Ok((540, 2))),
        behind("behind the second record", &[540], Ok((568, 3))),
        behind("just before the last record", &[567], Ok((568, 3))),
        behind("behind the last record", &[568], Err(7)),
        behind("behind a place in the last record", &[569], Err(7)),
        behind("behind 65,535", &[65_535], Err(7)),
        behind("offsets that fall", &[568, 512], Ok((540, 2))),
        behind("the last offset once more", &[512, 568, 568], Err(7)),
        add("no record in the chunk", &[0; CHUNK], &[], 99, Err(7)),
        add("an entry as no chunk gives it", &chunk, &odd, 99, Ok(after_odd)),
    ]
}

fn added_rooms() -> Vec<ByHand> {
    let chunk = numbered(&[1, 2]);
    let two = [smallest(512, 1), smallest(540, 2)].concat();
    let one = &two[..11];
    vec![
        add("no room for the first entry", &chunk, &[], 0, Err(13)),
        add("a byte too few for the first entry", &chunk, &[], 10, Err(13)),
        add("room for the first entry", &chunk, &[], 11, Ok(one.to_vec())),
        add("a byte more than the first entry", &chunk, &[], 12, Ok(one.to_vec())),
        add("no room for the second entry", &chunk, one, 0, Err(13)),
        add("room for the first of two", &chunk, one, 11, Err(13)),
        add("a byte too few for the second entry", &chunk, one, 21, Err(13)),
        add("room for the second entry", &chunk, one, 22, Ok(two.clone())),
        add("a byte more than two entries", &chunk, one, 23, Ok(two.clone())),
    ]
}

/// 1, 16, 7, 15, 13.
fn order() -> Vec<ByHand> {
    let chunk = numbered(&[LARGEST + 1, 2, LARGEST + 1]);
    let mut broken = smallest(568, 1);
    broken[10] |= 1;
    let both = [smallest(512, 1), smallest(540, 2)].concat();
    vec![
        add("no chunk and no index", &chunk[1..], &[0; 10], 0, Err(1)),
        add("no chunk and no record left", &[0; CHUNK + 1], &[], 0, Err(1)),
        add("no index by its length, and no record left", &[0; CHUNK], &[0; 10], 0, Err(16)),
        add("no index by a bit, and no record left", &chunk, &broken, 0, Err(16)),
        add("no index and a large number", &chunk, &[0xff; 11], 0, Err(16)),
        add("no record left and no room", &chunk, &smallest(568, 1), 0, Err(7)),
        add("a large number first", &chunk, &[], 99, Err(15)),
        add("a large number and no room", &chunk, &[], 0, Err(15)),
        add("a large number last", &chunk, &smallest(540, 1), 99, Err(15)),
        add("large numbers elsewhere, and no room", &chunk, &smallest(512, 1), 21, Err(13)),
        add("large numbers elsewhere", &chunk, &smallest(512, 1), 22, Ok(both)),
        entry("no such entry of no index", &[0; 10], 5, Err(16)),
        find("2^48 in no index", &[0; 10], LARGEST + 1, Err(16)),
    ]
}
