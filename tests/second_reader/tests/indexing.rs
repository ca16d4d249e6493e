//! What the indexing program writes for a log, with lines worked out by hand, and
//! of the samples those that stand beside them.

mod common;

use common::{read_sample, seal_chunk};
use log_writer::*;
use second_reader::indexing::{indexing, Written};

const LARGEST: u64 = 0xffff_ffff_ffff;

/// A chunk of the smallest records with these numbers, from 512 on. They have no
/// binary XML, so that their texts are refused with 8.
fn numbered(numbers: &[u64]) -> Vec<u8> {
    let records: Vec<u8> = numbers.iter().flat_map(|number| record(*number, &[])).collect();
    chunk_with(DATA, &records)
}

/// A log whose file header is all ones.
fn log(chunks: &[Vec<u8>], left_over: usize) -> Vec<u8> {
    [vec![0xff; HEADER], chunks.concat(), vec![0x2a; left_over]].concat()
}

/// Standard output alone.
fn writes(lines: &str) -> Written {
    Written { lines: lines.to_string(), told: Vec::new() }
}

/// Lines on standard error alone.
fn tells(lines: &[&str]) -> Written {
    Written { lines: String::new(), told: lines.iter().map(|line| line.to_string()).collect() }
}

#[test]
fn short_files() {
    for length in [0, 1, 28, 512, 4_095, 4_096] {
        let file = &log(&[numbered(&[1])], 0)[..length];
        assert_eq!(indexing(file, None), writes(""), "{length} bytes");
        assert_eq!(indexing(file, Some("1")), writes(""), "{length} bytes");
    }
}

#[test]
fn left_over_bytes() {
    for length in [1, 28, 512, 4_096, 65_535] {
        let alone = log(&[], length);
        assert_eq!(indexing(&alone, None), writes("index 0 refused 1\n"));
        assert_eq!(indexing(&alone, Some("0")), tells(&["index 0 refused 1\n"]));
        let after = log(&[numbered(&[7]), vec![0; CHUNK]], length);
        let lines = "index 0 ok\n0 512 28 7 8\nindex 1 ok\nindex 2 refused 1\n";
        assert_eq!(indexing(&after, None), writes(lines));
        let told = vec!["index 2 refused 1\n".to_string()];
        let found = Written { lines: "0 512 28 7 8\n".to_string(), told };
        assert_eq!(indexing(&after, Some("7")), found);
    }
    // A record among them is not looked for.
    let file = [log(&[], 0), vec![0; DATA], record(7, &[])].concat();
    assert_eq!(indexing(&file, None), writes("index 0 refused 1\n"));
    assert_eq!(indexing(&file, Some("7")), tells(&["index 0 refused 1\n"]));
}

#[test]
fn lines_of_entries() {
    let chunk = numbered(&[5, 9, 0, LARGEST]);
    let lines = "\
        index 0 ok\n\
        0 512 28 5 8\n\
        0 540 28 9 8\n\
        0 568 28 0 8\n\
        0 596 28 281474976710655 8\n";
    assert_eq!(indexing(&log(&[chunk], 0), None), writes(lines));
    // The last record that a chunk has room for, and the largest one.
    let last = chunk_with(65_508, &record(3, &[]));
    let mut largest = vec![0; CHUNK];
    frame(&mut largest, 512, 65_024);
    let lines = "index 0 ok\n0 65508 28 3 8\nindex 1 ok\n1 512 65024 0 8\n";
    assert_eq!(indexing(&log(&[last, largest], 0), None), writes(lines));
}

#[test]
fn refusals_of_texts() {
    let sound = one_record(|w| w.empty("P"));
    let beyond = one_record(|w| w.element(0x01, |w| w.pointer(511)));
    let wrong = one_record(|w| w.open("P", |w| w.substitution(0x0d, 0)));
    let size = |chunk: &[u8]| get_u32(chunk, DATA + 4);
    let lines = format!(
        "index 0 ok\n0 512 {} 1 0\nindex 1 ok\n1 512 {} 1 9\nindex 2 ok\n2 512 {} 1 10\n",
        size(&sound),
        size(&beyond),
        size(&wrong)
    );
    assert_eq!(indexing(&log(&[sound, beyond, wrong], 0), None), writes(&lines));
}

/// Numbers of the chunks and of their lines have several digits.
#[test]
fn many_chunks() {
    let mut chunks = vec![vec![0; CHUNK]; 101];
    chunks[9] = numbered(&[1]);
    chunks[100] = numbered(&[1, 2]);
    let line = |chunk: usize| match chunk {
        9 => "index 9 ok\n9 512 28 1 8\n".to_string(),
        100 => "index 100 ok\n100 512 28 1 8\n100 540 28 2 8\n".to_string(),
        _ => format!("index {chunk} ok\n"),
    };
    let lines: String = (0..101).map(line).collect();
    let file = log(&chunks, 0);
    assert_eq!(indexing(&file, None), writes(&lines));
    assert_eq!(indexing(&file, Some("1")), writes("9 512 28 1 8\n100 512 28 1 8\n"));
    assert_eq!(indexing(&file, Some("2")), writes("100 540 28 2 8\n"));
}

#[test]
fn numbers_given() {
    let file = log(&[numbered(&[5, 9, 5]), numbered(&[0, 50, 5, LARGEST])], 0);
    let fives = "0 512 28 5 8\n0 568 28 5 8\n1 568 28 5 8\n";
    let zero = "1 512 28 0 8\n";
    let none = "";
    let cases = [
        ("5", fives),
        ("05", fives),
        ("0000000000000000000000000005", fives),
        ("9", "0 540 28 9 8\n"),
        ("50", "1 540 28 50 8\n"),
        ("0", zero),
        ("000", zero),
        ("281474976710655", "1 596 28 281474976710655 8\n"),
        ("55", none),
        ("500", none),
        ("1", none),
        // 5 and 2^32, 2^48 and 2^64, and 2^64 itself: cut to these bits they would be found.
        ("4294967301", none),
        ("281474976710661", none),
        ("18446744073709551621", none),
        ("18446744073709551616", none),
        // 2^64 - 1, and 2^128 and 5.
        ("18446744073709551615", none),
        ("340282366920938463463374607431768211461", none),
    ];
    for (word, lines) in cases {
        assert_eq!(indexing(&file, Some(word)), writes(lines), "{word}");
    }
    for digit in ["1", "5", "9"] {
        assert_eq!(indexing(&file, Some(&digit.repeat(100))), writes(none));
    }
    assert_eq!(indexing(&file, Some(&"0".repeat(100))), writes(zero));
}

/// An index is refused for one number that is too large, wherever it stands.
#[test]
fn numbers_too_large() {
    for numbers in [[LARGEST + 1, 5, 6], [5, 1 << 63, 6], [5, 6, u64::MAX]] {
        let file = log(&[numbered(&[5]), numbered(&numbers), numbered(&[LARGEST, 5])], 3);
        let lines = "\
            index 0 ok\n\
            0 512 28 5 8\n\
            index 1 refused 15\n\
            index 2 ok\n\
            2 512 28 281474976710655 8\n\
            2 540 28 5 8\n\
            index 3 refused 1\n";
        assert_eq!(indexing(&file, None), writes(lines));
        let told = tells(&["index 1 refused 15\n", "index 3 refused 1\n"]).told;
        let due = |lines: &str| Written { lines: lines.to_string(), told: told.clone() };
        assert_eq!(indexing(&file, Some("5")), due("0 512 28 5 8\n2 540 28 5 8\n"));
        assert_eq!(indexing(&file, Some("6")), due(""));
        for number in numbers.into_iter().filter(|number| *number > 6) {
            assert_eq!(indexing(&file, Some(&number.to_string())), due(""));
        }
        let errors = "evtx_index: a: b: index 1 refused 15\nevtx_index: a: b: index 3 refused 1\n";
        assert_eq!(indexing(&file, Some("6")).errors("a: b"), errors);
    }
}

/// Neither the file header nor a chunk's says which records have entries: here the
/// chunk is sound, and its free space begins before the second record.
#[test]
fn headers_are_not_looked_at() {
    let mut chunk = numbered(&[1, 2]);
    seal_chunk(&mut chunk, 540);
    let lines = "index 0 ok\n0 512 28 1 8\n0 540 28 2 8\n";
    assert_eq!(indexing(&log(&[chunk.clone()], 0), None), writes(lines));
    let file = [vec![0; HEADER], chunk].concat();
    assert_eq!(indexing(&file, None), writes(lines));
}

/// The lines beside a sample, and those that its listing and its carving give
/// together: offset, number and refusal are the listing's, the size is the
/// carving's. The samples' listings have all records that the search finds.
#[test]
fn samples() {
    for name in ["panel", "windows", "powercut"] {
        let read = |end: &str| String::from_utf8(read_sample(&format!("{name}.{end}"))).unwrap();
        let (listing, carving) = (read("listing"), read("carving"));
        let due = read("index");
        assert_eq!(indexing(&read_sample(&format!("{name}.evtx")), None), writes(&due), "{name}");
        assert!(joined(&listing, &carving) == due, "{name}: listing and carving give other lines");
    }
}

fn joined(listing: &str, carving: &str) -> String {
    let (mut lines, mut chunk, mut last) = (String::new(), 0, 0);
    let mut places = carving.lines();
    for line in listing.lines().skip(1) {
        let words: Vec<&str> = line.split(' ').collect();
        match words[0] {
            "chunk" => {
                (chunk, last) = (words[1].parse().unwrap(), last + 1);
                lines += &format!("index {chunk} ok\n");
            }
            "rest" => lines += &format!("index {last} refused 1\n"),
            offset => {
                let (place, size) = places.next().unwrap().split_once(' ').unwrap();
                let at = 4_096 + 65_536 * chunk + offset.parse::<usize>().unwrap();
                assert_eq!(place, at.to_string());
                let refusal = if words[2] == "refused" { words[3] } else { "0" };
                lines += &format!("{chunk} {offset} {size} {} {refusal}\n", words[1]);
            }
        }
    }
    assert_eq!(places.next(), None);
    lines
}
