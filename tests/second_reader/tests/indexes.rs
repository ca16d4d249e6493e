//! The index beside a chunk: what its entries hold, and what is refused.

mod common;

use common::read_sample;
use log_writer::*;
use second_reader::index::*;

/// Room for the index of any chunk.
const ANY: usize = 25_542;
const LARGEST: u64 = 0xffff_ffff_ffff;

/// A chunk of the smallest records with these numbers, from 512 on.
fn numbered(numbers: &[u64]) -> Vec<u8> {
    let records: Vec<u8> = numbers.iter().flat_map(|number| record(*number, &[])).collect();
    chunk_with(DATA, &records)
}

/// An entry that says these numbers.
fn says(position: u64, offset: u64, size: u64, record_number: u64, refusal: u32) -> Placed {
    Placed { position, entry: Entry { offset, size, record_number, refusal } }
}

/// The bytes of an entry: offset, the size 28, a number below 256, and the refusal 8.
fn smallest(offset: u16, number: u8) -> [u8; 11] {
    let [high, low] = offset.to_be_bytes();
    [high, low, 0, 28, 0, 0, 0, 0, 0, number, 0x80]
}

/// The record of `inside` at 0x1234, with another size and number: what follows
/// its element is not read.
fn far_record(inside: impl FnOnce(&mut Writer)) -> Vec<u8> {
    let mut chunk = record_at(0x1234, inside);
    frame(&mut chunk, 0x1234, 0x5678);
    put(&mut chunk, 0x1234 + 8, &0x9abc_def0_1357u64.to_le_bytes());
    chunk
}

#[test]
fn all_fields_different() {
    let bytes = [0x12, 0x34, 0x56, 0x78, 0x9a, 0xbc, 0xde, 0xf0, 0x13, 0x57, 0xb0];
    let said = says(0, 0x1234, 0x5678, 0x9abc_def0_1357, 11);
    assert_eq!(entry(&bytes, 0), Ok(said));
    assert_eq!(find(&bytes, 0x9abc_def0_1357), Ok(said));
    // A literal value of another type than 01 is 11.
    let chunk = far_record(|w| w.open("P", |w| w.put(&[0x05, 0x02, 0, 0])));
    assert_eq!(build(&chunk, ANY), Ok(bytes.to_vec()));
    assert_eq!(add(&chunk, &[], ANY), Ok(bytes.to_vec()));
}

#[test]
fn numbers_at_the_bounds() {
    let built = |number: u64| build(&numbered(&[number]), ANY);
    let due = |number: [u8; 6]| [&[2, 0, 0, 28], &number[..], &[0x80]].concat();
    assert_eq!(built(0), Ok(due([0; 6])));
    assert_eq!(built(1), Ok(due([0, 0, 0, 0, 0, 1])));
    assert_eq!(built(40_112), Ok(due([0, 0, 0, 0, 0x9c, 0xb0])));
    assert_eq!(built(1 << 40), Ok(due([1, 0, 0, 0, 0, 0])));
    assert_eq!(built(LARGEST), Ok(due([0xff; 6])));
    for number in [LARGEST + 1, LARGEST + 2, 1 << 63, u64::MAX] {
        assert_eq!(built(number), Err(15));
        assert_eq!(add(&numbered(&[number]), &[], ANY), Err(15));
    }
    assert_eq!(find(&due([0; 6]), 0), Ok(says(0, 512, 28, 0, 8)));
    assert_eq!(find(&due([0xff; 6]), LARGEST), Ok(says(0, 512, 28, LARGEST, 8)));
    // Cut to 48 bits these would be found.
    assert_eq!(find(&due([0; 6]), LARGEST + 1), Err(7));
    assert_eq!(find(&due([0xff; 6]), u64::MAX), Err(7));
}

/// `<P>`, 13,105 times &, which takes five bytes, some letters, and `</P>`.
fn long_text(letters: usize) -> Vec<u8> {
    let text = "&".repeat(13_105) + &"a".repeat(letters);
    one_record(|w| w.open("P", |w| w.literal(&text)))
}

fn deep(w: &mut Writer, depth: usize) {
    match depth {
        1 => w.empty("e"),
        _ => w.open("e", |w| deep(w, depth - 1)),
    }
}

#[test]
fn refusals_of_texts() {
    let cases = [
        (0, one_record(|w| w.empty("P"))),
        (8, chunk_with(DATA, &record(1, &[]))),
        (9, one_record(|w| w.element(0x01, |w| w.pointer(511)))),
        (10, one_record(|w| w.open("P", |w| w.substitution(0x0d, 0)))),
        (11, one_record(|w| w.open("P", |w| w.put(&[0x45, 0x00, 0, 0])))),
        (0, one_record(|w| deep(w, 32))),
        (12, one_record(|w| deep(w, 33))),
        // Texts of 65,536 and of 65,537 bytes.
        (0, long_text(4)),
        (13, long_text(5)),
    ];
    for (refusal, chunk) in cases {
        let size = get_u32(&chunk, DATA + 4) as u16;
        let [high, low] = size.to_be_bytes();
        let due = [2, 0, high, low, 0, 0, 0, 0, 0, 1, refusal << 4];
        assert_eq!(build(&chunk, ANY), Ok(due.to_vec()));
        assert_eq!(add(&chunk, &[], ANY), Ok(due.to_vec()));
        let said = says(0, 512, size.into(), 1, refusal.into());
        assert_eq!(entry(&due, 0), Ok(said));
    }
}

#[test]
fn lengths_of_indexes() {
    let chunk = numbered(&[1, 2, 3]);
    let index: Vec<u8> = [smallest(511, 1), smallest(512, 2)].concat();
    let answers = |length: usize| {
        let front = &index[..length];
        let first = entry(front, 0).map(|placed| placed.entry.offset);
        let last = entry(front, 1).map(|placed| placed.entry.offset);
        let found = find(front, 2).map(|placed| placed.position);
        (first, last, found, add(&chunk, front, ANY).map(|bytes| bytes[length..].to_vec()))
    };
    let entry_of = |offset, number| Ok(smallest(offset, number).to_vec());
    assert_eq!(answers(0), (Err(7), Err(7), Err(7), entry_of(512, 1)));
    assert_eq!(answers(11), (Ok(511), Err(7), Err(7), entry_of(512, 1)));
    assert_eq!(answers(22), (Ok(511), Ok(512), Ok(1), entry_of(540, 2)));
    for length in (1..22).filter(|length| *length != 11) {
        assert_eq!(answers(length), (Err(16), Err(16), Err(16), Err(16)), "{length} bytes");
    }
}

#[test]
fn zero_bits_that_are_not_zero() {
    let chunk = numbered(&[1, 2, 3, 4]);
    let sound = build(&numbered(&[1, 2, 3]), ANY).unwrap();
    for at in [0, 1, 2] {
        for bit in 0..8 {
            let mut index = sound.clone();
            index[11 * at + 10] ^= 1 << bit;
            // The four bits above them are the refusal.
            let number = (bit < 4).then_some(16);
            for asked in [0, 1, 2] {
                assert_eq!(entry(&index, asked).err(), number, "bit {bit} of entry {at}");
                assert_eq!(find(&index, asked + 1).err(), number, "bit {bit} of entry {at}");
            }
            assert_eq!(entry(&index, 3).err(), number.or(Some(7)));
            assert_eq!(find(&index, 4).err(), number.or(Some(7)));
            assert_eq!(add(&chunk, &index, ANY).err(), number);
        }
    }
}

#[test]
fn the_first_of_two_with_one_number() {
    let index = build(&numbered(&[5, 9, 7, 9, 5]), ANY).unwrap();
    assert_eq!(find(&index, 9), Ok(says(1, 540, 28, 9, 8)));
    assert_eq!(find(&index, 5), Ok(says(0, 512, 28, 5, 8)));
    assert_eq!(find(&index, 7), Ok(says(2, 568, 28, 7, 8)));
    assert_eq!(find(&index[22..], 9), Ok(says(1, 596, 28, 9, 8)));
    assert_eq!(find(&index, 6), Err(7));
    assert_eq!(entry(&index, 4), Ok(says(4, 624, 28, 5, 8)));
    for far in [5, 6, 1 << 16, 1 << 32, (1 << 32) + 4, 1 << 63, u64::MAX] {
        assert_eq!(entry(&index, far), Err(7));
    }
}

#[test]
fn rooms() {
    let chunk = numbered(&[1, 2]);
    let due = [smallest(512, 1), smallest(540, 2)].concat();
    for (room, enough) in [(0, false), (11, false), (21, false), (22, true), (23, true)] {
        let answer = if enough { Ok(due.clone()) } else { Err(13) };
        assert_eq!(build(&chunk, room), answer);
        assert_eq!(add(&chunk, &due[..11], room), answer);
    }
    assert_eq!(add(&chunk, &[], 10), Err(13));
    assert_eq!(add(&chunk, &[], 11), Ok(due[..11].to_vec()));
    // Nothing is to be written.
    let empty = vec![0; CHUNK];
    assert_eq!(build(&empty, 0), Ok(vec![]));
    assert_eq!(add(&empty, &[], 0), Err(7));
    let full = numbered(&[1; 2_322]);
    assert_eq!(build(&full, 25_541), Err(13));
    assert_eq!(build(&full, 25_542).map(|index| index.len()), Ok(25_542));
}

/// Adds to an empty index as long as that is not refused. Answers by which
/// number it then is.
fn grown(chunk: &[u8], step: &mut dyn FnMut(&[u8])) -> u32 {
    let mut index = Vec::new();
    loop {
        step(&index);
        match add(chunk, &index, usize::MAX) {
            Ok(more) => index = more,
            Err(number) => return number,
        }
    }
}

#[test]
fn additions_from_empty() {
    let sample = read_sample("panel.evtx")[4_096..][..CHUNK].to_vec();
    for chunk in [vec![0; CHUNK], numbered(&[3, 1, 2, 2, 0, LARGEST]), sample] {
        let index = build(&chunk, ANY).unwrap();
        let mut steps = 0;
        let number = grown(&chunk, &mut |grown| {
            assert_eq!(grown, &index[..11 * steps]);
            steps += 1;
        });
        assert_eq!((number, 11 * (steps - 1)), (7, index.len()));
    }
    // Up to the record whose number is too large, of which none can be built.
    let chunk = numbered(&[3, 1, LARGEST + 1, 2]);
    let mut steps = Vec::new();
    assert_eq!(grown(&chunk, &mut |grown| steps.push(grown.to_vec())), 15);
    let entries = [smallest(512, 3), smallest(540, 1)];
    assert_eq!(steps, [vec![], entries[..1].concat(), entries.concat()]);
    assert_eq!(build(&chunk, ANY), Err(15));
}

#[test]
fn what_an_addition_goes_by() {
    let chunk = numbered(&[1, 2, 3]);
    // The last entry's offset, whatever the others are.
    let added = |offsets: &[u16]| -> Result<u16, u32> {
        let index: Vec<u8> = offsets.iter().flat_map(|offset| smallest(*offset, 7)).collect();
        let more = add(&chunk, &index, ANY)?;
        assert_eq!(more[..index.len()], index);
        Ok(u16::from_be_bytes([more[index.len()], more[index.len() + 1]]))
    };
    assert_eq!(added(&[]), Ok(512));
    assert_eq!(added(&[0]), Ok(512));
    assert_eq!(added(&[511]), Ok(512));
    assert_eq!(added(&[512]), Ok(540));
    assert_eq!(added(&[513]), Ok(540));
    assert_eq!(added(&[539]), Ok(540));
    assert_eq!(added(&[540]), Ok(568));
    assert_eq!(added(&[567]), Ok(568));
    assert_eq!(added(&[568]), Err(7));
    assert_eq!(added(&[65_535]), Err(7));
    assert_eq!(added(&[568, 512]), Ok(540));
    assert_eq!(added(&[0, 568]), Err(7));
    // Nor what else the last entry holds.
    let odd = [2, 0, 0, 0, 0xff, 0xff, 0xff, 0xff, 0xff, 0xff, 0xf0];
    let due = [&odd[..], &smallest(540, 2)].concat();
    assert_eq!(add(&chunk, &odd, ANY), Ok(due));
    assert_eq!(entry(&odd, 0), Ok(says(0, 512, 0, LARGEST, 15)));
}

#[test]
fn the_order_of_refusals() {
    let large = numbered(&[LARGEST + 1, 2, LARGEST + 1]);
    for length in [0, 512, 65_535, 65_537] {
        let chunk = [&large[..], &[0]].concat()[..length].to_vec();
        assert_eq!(build(&chunk, 0), Err(1));
        assert_eq!(add(&chunk, &[1; 10], 0), Err(1));
        assert_eq!(add(&chunk, &[], 0), Err(1));
    }
    // 15 before 13, wherever the number stands.
    assert_eq!(build(&large, 0), Err(15));
    assert_eq!(build(&numbered(&[1, LARGEST + 1]), 0), Err(15));
    assert_eq!(build(&numbered(&[1, LARGEST]), 0), Err(13));
    // 16 before 7 and 15, 7 before 15, and that before 13.
    assert_eq!(add(&large, &[0; 10], 0), Err(16));
    assert_eq!(add(&large, &[0xff; 11], 0), Err(16));
    assert_eq!(add(&large, &smallest(568, 1), 0), Err(7));
    assert_eq!(add(&large, &smallest(540, 1), 0), Err(15));
    assert_eq!(add(&large, &[], 0), Err(15));
    // The numbers of other records do not matter.
    assert_eq!(add(&large, &smallest(512, 1), 21), Err(13));
    let both = [smallest(512, 1), smallest(540, 2)].concat();
    assert_eq!(add(&large, &smallest(512, 1), 22), Ok(both));
    // 16 before 7, over the whole index.
    assert_eq!(entry(&[0xff; 11], 9), Err(16));
    assert_eq!(find(&[&smallest(512, 1)[..], &[0]].concat(), 1), Err(16));
}

#[test]
fn records_that_the_search_lists() {
    // One inside another, one below 512, and one whose second size the last record
    // overwrites; and any header.
    let mut chunk = chunk_with(0, &[0xee; DATA]);
    frame(&mut chunk, 100, 28);
    frame(&mut chunk, 600, 100);
    put(&mut chunk, 640, &record(4, &[]));
    frame(&mut chunk, 65_480, 29);
    frame(&mut chunk, 65_508, 28);
    let first = [2, 88, 0, 100, 0, 0, 0, 0, 0, 0, 0x80];
    let last = [0xff, 0xe4, 0, 28, 0, 0, 0, 0, 0, 0, 0x80];
    assert_eq!(build(&chunk, ANY), Ok([first, last].concat()));
    // The largest record.
    let mut chunk = vec![0; CHUNK];
    frame(&mut chunk, 512, 65_024);
    assert_eq!(build(&chunk, ANY), Ok(vec![2, 0, 0xfe, 0, 0, 0, 0, 0, 0, 0, 0x80]));
}

/// Chunk, offset, number and refusal of each record that a listing has.
fn listed(listing: &str) -> Vec<[u64; 4]> {
    let mut lines = Vec::new();
    let mut chunk = 0;
    for line in listing.lines() {
        let words: Vec<&str> = line.split(' ').collect();
        let number = |at: usize| words.get(at).and_then(|word| word.parse::<u64>().ok());
        match (words[0], number(0), number(1)) {
            ("chunk", _, Some(index)) => chunk = index,
            (_, Some(offset), Some(record_number)) => {
                let refusal = if words[2] == "refused" { number(3).unwrap() } else { 0 };
                lines.push([chunk, offset, record_number, refusal]);
            }
            _ => (),
        }
    }
    lines
}

#[test]
fn indexes_of_the_samples() {
    for name in ["panel", "windows", "powercut"] {
        let log = read_sample(&format!("{name}.evtx"));
        let listing = String::from_utf8(read_sample(&format!("{name}.listing"))).unwrap();
        let mut lines = Vec::new();
        for (number, chunk) in log[4_096..].chunks_exact(CHUNK).enumerate() {
            let index = Index::of(&build(chunk, ANY).unwrap()).unwrap();
            for entry in index.entries() {
                let Entry { offset, record_number, refusal, .. } = *entry;
                lines.push([number as u64, offset, record_number, refusal.into()]);
            }
        }
        assert_eq!(lines, listed(&listing), "{name}");
        assert!(!lines.is_empty());
    }
}
