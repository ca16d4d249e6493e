//! Logs whose listings, and the lines of whose indexes, were worked out by hand. An
//! index goes by the records that the search finds alone: headers and the free-space
//! offset do not matter to it.

use super::File;
use crate::generated::seal;
use crate::hand::first_example;
use log_writer::*;
use support::damage::{wrong_chunk_fields, wrong_file_fields};
use support::generate::seal_file_header;

fn header() -> Vec<u8> {
    let mut header = file_header();
    seal_file_header(&mut header);
    header
}

fn file(chunks: &[&[u8]], left_over: usize) -> Vec<u8> {
    [&[&header()[..]], chunks, &[&vec![0x2a; left_over]]].concat().concat()
}

/// The first example's record as a sound chunk.
fn example() -> Vec<u8> {
    let mut chunk = first_example();
    seal(&mut chunk, 622);
    chunk
}

const LINE: &str = "512 1 <P>-32768</P>\n";

/// The index of the example as the chunk of this number. The record ends at 622.
fn entry(chunk: usize) -> String {
    format!("index {chunk} ok\n{chunk} 512 110 1 0\n")
}

fn sizes() -> Vec<File> {
    let mut files = Vec::new();
    for length in [0, 1, 27, 4_095] {
        let bytes = header()[..length].to_vec();
        files.push(File::new("30: short files", bytes).with("header refused 1\n").indexed(""));
    }
    for left_over in [1, 28, 4_096, 65_535] {
        let left_over_bytes = |chunks: &[&[u8]], lines: String, indexes: String| {
            File::new("left-over bytes", file(chunks, left_over)).with(lines).indexed(indexes)
        };
        let lines = format!("header ok\nrest {left_over}\n");
        files.push(left_over_bytes(&[], lines, "index 0 refused 1\n".to_string()));
        let lines = format!("header ok\nchunk 0 ok\n{LINE}rest {left_over}\n");
        files.push(left_over_bytes(&[&example()], lines, entry(0) + "index 1 refused 1\n"));
    }
    files.push(File::new("a header alone", file(&[], 0)).with("header ok\n").indexed(""));
    let lines = format!("header ok\nchunk 0 ok\n{LINE}");
    files.push(File::new("the example", file(&[&example()], 0)).with(lines).indexed(entry(0)));
    let lines = format!("header ok\nchunk 0 ok\n{LINE}chunk 1 ok\n{LINE}");
    let two = File::new("two chunks", file(&[&example(), &example()], 0));
    files.push(two.with(lines).indexed(entry(0) + &entry(1)));
    files
}

/// Wrong fields of the file header, and several at once: the first in document
/// 01's order counts, and the chunks are listed all the same.
fn refused_headers() -> Vec<File> {
    let faults = |bits: usize, number: u32| {
        let mut bytes = file(&[&example()], 3);
        wrong_file_fields(&mut bytes[..HEADER], bits);
        let lines = format!("header refused {number}\nchunk 0 ok\n{LINE}rest 3\n");
        let file = File::new(&format!("11: file header faults {bits:06b}"), bytes).with(lines);
        file.indexed(entry(0) + "index 1 refused 1\n")
    };
    // Magic, minor, major, header size, block size, checksum.
    vec![
        faults(0b000001, 2),
        faults(0b000010, 3),
        faults(0b000100, 3),
        faults(0b001000, 4),
        faults(0b010000, 4),
        faults(0b100000, 5),
        faults(0b111111, 2),
        faults(0b111110, 3),
        faults(0b111000, 4),
        faults(0b101010, 3),
    ]
}

fn refused_chunks() -> Vec<File> {
    let faults = |bits: usize, number: u32| {
        let mut chunk = example();
        wrong_chunk_fields(&mut chunk, bits);
        let lines = format!("header ok\nchunk 0 refused {number}\n{LINE}chunk 1 ok\n{LINE}");
        let bytes = file(&[&chunk, &example()], 0);
        let file = File::new(&format!("11: chunk faults {bits:05b}"), bytes).with(lines);
        file.indexed(entry(0) + &entry(1))
    };
    let mut flipped = example();
    flipped[52] ^= 1;
    let lines = format!("header ok\nchunk 0 refused 5\n{LINE}");
    // Magic, header size, free-space offset, data checksum, header checksum.
    vec![
        faults(0b00001, 2),
        faults(0b00010, 4),
        faults(0b00100, 4),
        faults(0b01000, 6),
        faults(0b10000, 5),
        faults(0b11111, 2),
        faults(0b11110, 4),
        faults(0b11000, 5),
        File::new("11: a bit of the data checksum", file(&[&flipped], 0))
            .with(lines)
            .indexed(entry(0)),
    ]
}

/// Two records: the second is listed by an ok chunk if it ends by the
/// free-space offset, and by a refused one always. Their numbers are too large for
/// an index.
fn free_space() -> Vec<File> {
    let first = record(u64::MAX, &[]);
    let second = record(1 << 63, &[]);
    let with = |free: usize, broken: bool| {
        let mut chunk = chunk_with(512, &[&first[..], &second].concat());
        seal(&mut chunk, free);
        chunk[52] ^= u8::from(broken);
        chunk
    };
    let one = "512 18446744073709551615 refused 8\n";
    let two = "540 9223372036854775808 refused 8\n";
    let ok = |free, lines: String| {
        let bytes = file(&[&with(free, false)], 0);
        File::new(&format!("29: free space from {free}"), bytes)
            .with(format!("header ok\nchunk 0 ok\n{lines}"))
            .indexed("index 0 refused 15\n")
    };
    let refused = File::new("29: a refused chunk", file(&[&with(512, true)], 0))
        .with(format!("header ok\nchunk 0 refused 5\n{one}{two}"))
        .indexed("index 0 refused 15\n");
    vec![
        ok(568, format!("{one}{two}")),
        ok(569, format!("{one}{two}")),
        ok(65_536, format!("{one}{two}")),
        ok(567, one.to_string()),
        ok(540, one.to_string()),
        ok(539, String::new()),
        ok(512, String::new()),
        refused,
    ]
}

/// The numbers around the first one that is too large for an index, in the first
/// record of a chunk and in the last; the last two chunks are full of zeros and cut.
fn numbers_around_the_largest() -> Vec<File> {
    let largest = (1 << 48) - 1;
    let with = |numbers: &[u64]| {
        let records: Vec<u8> = numbers.iter().flat_map(|number| record(*number, &[])).collect();
        let mut chunk = chunk_with(512, &records);
        seal(&mut chunk, 512 + records.len());
        chunk
    };
    let chunks = [with(&[largest, 0]), with(&[largest + 1, 0]), with(&[0, largest + 1])];
    let [first, second, third] = [&chunks[0], &chunks[1], &chunks[2]].map(Vec::as_slice);
    let lines = "\
        header ok\n\
        chunk 0 ok\n\
        512 281474976710655 refused 8\n\
        540 0 refused 8\n\
        chunk 1 ok\n\
        512 281474976710656 refused 8\n\
        540 0 refused 8\n\
        chunk 2 ok\n\
        512 0 refused 8\n\
        540 281474976710656 refused 8\n\
        chunk 3 refused 2\n\
        rest 65535\n";
    let indexes = "\
        index 0 ok\n\
        0 512 28 281474976710655 8\n\
        0 540 28 0 8\n\
        index 1 refused 15\n\
        index 2 refused 15\n\
        index 3 ok\n\
        index 4 refused 1\n";
    let bytes = file(&[first, second, third, &[0; CHUNK]], 65_535);
    vec![File::new("numbers around 2^48", bytes).with(lines).indexed(indexes)]
}

/// The search goes through the whole chunk: a record across the free-space
/// offset hides those inside it, though it is not listed itself. It has an entry.
fn hidden() -> Vec<File> {
    let mut chunk = chunk_with(600, &record(2, &[]));
    frame(&mut chunk, 512, 28);
    frame(&mut chunk, 560, 200);
    seal(&mut chunk, 700);
    let indexes = "index 0 ok\n0 512 28 0 8\n0 560 200 0 8\n";
    let ok = File::new("29: a record across the free-space offset", file(&[&chunk], 0))
        .with("header ok\nchunk 0 ok\n512 0 refused 8\n")
        .indexed(indexes);
    chunk[124] ^= 1;
    let refused = File::new("29: the same in a refused chunk", file(&[&chunk], 0))
        .with("header ok\nchunk 0 refused 5\n512 0 refused 8\n560 0 refused 8\n")
        .indexed(indexes);
    vec![ok, refused]
}

/// As many records as a chunk can give; a list of their offsets is never short, and
/// the lines of their entries are many: with the largest numbers, also long.
fn full_chunk() -> Vec<File> {
    let with = |first: u64| {
        let numbered = || (0..2_322).map(|at| (512 + 28 * at, first + at));
        let records: Vec<u8> = numbered().flat_map(|(_, number)| record(number, &[])).collect();
        let mut chunk = chunk_with(512, &records);
        seal(&mut chunk, 512 + 2_322 * 28);
        let line = |(offset, number)| format!("{offset} {number} refused 8\n");
        let lines: String = numbered().map(line).collect();
        let entry = |(offset, number)| format!("0 {offset} 28 {number} 8\n");
        let entries: String = numbered().map(entry).collect();
        File::new("2: a chunk of 2,322 records", file(&[&chunk], 0))
            .with(format!("header ok\nchunk 0 ok\n{lines}"))
            .indexed(format!("index 0 ok\n{entries}"))
    };
    vec![with(0), with((1 << 48) - 2_322)]
}

/// More bytes than a search of loose bytes takes.
fn many_chunks() -> Vec<File> {
    let empty = vec![0; CHUNK];
    let mut chunks = vec![&empty[..]; 257];
    let last = example();
    chunks[256] = &last;
    let refused: String = (0..256).map(|index| format!("chunk {index} refused 2\n")).collect();
    let lines = format!("header ok\n{refused}chunk 256 ok\n{LINE}rest 9\n");
    let empty: String = (0..256).map(|index| format!("index {index} ok\n")).collect();
    let indexes = format!("{empty}{}index 257 refused 1\n", entry(256));
    vec![File::new("5: a log of 16,846,857 bytes", file(&chunks, 9)).with(lines).indexed(indexes)]
}

/// The log's one entry, whose record has the number 1 and the size that it says.
fn of_one(file: File, refusal: u32) -> File {
    let size = get_u32(&file.bytes, HEADER + DATA + 4);
    file.indexed(format!("index 0 ok\n0 512 {size} 1 {refusal}\n"))
}

/// Texts of 65,536 bytes and of one more: 7 bytes of tags, 16,382 bytes of two
/// digits each, twice, and a literal of one byte or of two.
fn room() -> Vec<File> {
    let with = |units: &str| {
        let mut chunk = one_record(|w| {
            let element = |w: &mut Writer| {
                w.open("P", |w| {
                    w.substitution(0x0d, 0);
                    w.substitution(0x0d, 0);
                    w.literal(units);
                });
            };
            w.instance(element, &[plain(0x0e, [0xab; 16_382])]);
        });
        seal(&mut chunk, 20_000);
        file(&[&chunk], 0)
    };
    let text = "AB".repeat(2 * 16_382);
    let listed = format!("header ok\nchunk 0 ok\n512 1 <P>{text}x</P>\n");
    let refused = "header ok\nchunk 0 ok\n512 1 refused 13\n";
    vec![
        of_one(File::new("a text of 65,536 bytes", with("x")).with(listed), 0),
        of_one(File::new("a text of 65,537 bytes", with("xy")).with(refused), 13),
        of_one(File::new("a text of 65,537 bytes", with("é")).with(refused), 13),
    ]
}

/// The same for a string of 21,843 units of three bytes each and one unit more,
/// as a value and as a literal: a zero is dropped from the value only.
fn room_of_zeros() -> Vec<File> {
    let units = |last: u16| [&[0x20ac; 21_843], &[last][..]].concat();
    let sealed = |mut chunk: Vec<u8>| {
        seal(&mut chunk, 50_000);
        file(&[&chunk], 0)
    };
    let value = |last: u16| {
        let string = [plain(0x01, u16s(&units(last)))];
        sealed(one_record(|w| w.instance(|w| w.open("P", |w| w.substitution(0x0e, 0)), &string)))
    };
    let literal = sealed(one_record(|w| w.open("P", |w| w.units(&units(0)))));
    let text = "€".repeat(21_843);
    let listed = format!("header ok\nchunk 0 ok\n512 1 <P>{text}</P>\n");
    let refused = "header ok\nchunk 0 ok\n512 1 refused 13\n";
    vec![
        of_one(File::new("65,536 bytes and a closing zero", value(0)).with(listed), 0),
        of_one(File::new("65,536 bytes and a letter", value(0x41)).with(refused), 13),
        of_one(File::new("65,536 bytes and a literal's closing zero", literal).with(refused), 13),
    ]
}

pub fn all() -> Vec<File> {
    let groups = [
        sizes(),
        refused_headers(),
        refused_chunks(),
        free_space(),
        numbers_around_the_largest(),
        hidden(),
        full_chunk(),
        many_chunks(),
        room(),
        room_of_zeros(),
    ];
    groups.into_iter().flatten().collect()
}
