//! A log with a listing of several megabytes, in which the program's memory for
//! output is full at places that are known to the byte.

use log_writer::*;
use support::generate::{seal_chunk, seal_chunk_header, seal_file_header};

const SEED: u64 = 0x0065_7674_7800_0005;
/// The program writes its memory out before the next line as soon as more bytes
/// than these stand in it: 1,048,576, less 65,600 that it keeps free for a line.
/// Should it have other numbers, its listings stay the same, and these lines go
/// on to hold; but to hit its places they have to follow.
const FULL: usize = 1_048_576 - 65_600;
/// How many bytes more are made to stand there: with 0 it is not yet written
/// out, with 1 it must be. A program whose parts disagree on this goes on for
/// ever, and only where they disagree.
const OVER: [usize; 11] = [0, 1, 2, 3, 35, 36, 63, 64, 65, 4_096, 65_500];
/// Before each of these stand as many chunks with lines of any length. A chunk
/// takes the program two steps or more; it has to take well over 1,000.
const CHUNKS_BETWEEN: usize = 45;
/// No record that `put_text` makes is longer.
const RECORD: usize = 2_200;
/// A longer text is refused with 13.
const TEXT: usize = 65_536;
const LONG_LINE: usize = 60_000;
/// A text is `<P>`, a value as often as it fits, letters and `</P>`.
const TAGS: usize = 7;
const VALUE: usize = 100;

pub struct Log {
    pub bytes: Vec<u8>,
    chunk: Vec<u8>,
    /// The chunk's number, and where its next record begins.
    index: usize,
    next: usize,
    records: u64,
    /// How many bytes the listing has, how many of these stand in the memory,
    /// and how many stood there when it was written out.
    pub length: usize,
    at: usize,
    pub writes: Vec<usize>,
}

/// The number with which a chunk is refused, by its own number.
fn refusal(index: usize) -> Option<u32> {
    [None, None, Some(6), None, Some(2), None, None, Some(5), None, None, Some(4)][index % 11]
}

fn chunk_line(index: usize) -> usize {
    let verdict = refusal(index).map_or("ok".to_string(), |number| format!("refused {number}"));
    format!("chunk {index} {verdict}\n").len()
}

/// Binary XML at an offset, with a text of `length` bytes.
fn text_body(offset: usize, number: u64, length: usize) -> Vec<u8> {
    let (times, left) = ((length - TAGS) / (2 * VALUE), (length - TAGS) % (2 * VALUE));
    let letters = char::from(b'a' + (number % 26) as u8).to_string().repeat(left);
    let element = |w: &mut Writer| {
        w.open("P", |w| {
            (0..times).for_each(|_| w.substitution(0x0d, 0));
            w.literal(&letters);
        });
    };
    let mut writer = Writer::at(offset);
    writer.stream_header();
    match times {
        0 => element(&mut writer),
        _ => writer.instance(element, &[plain(0x0e, [number as u8; VALUE])]),
    }
    writer.bytes
}

/// Binary XML with a value of a type that is not read: refused with 11.
fn unread_body(offset: usize) -> Vec<u8> {
    let mut writer = Writer::at(offset);
    writer.stream_header();
    writer.instance(|w| w.open("P", |w| w.substitution(0x0d, 0)), &[plain(0x81, [0, 0])]);
    writer.bytes
}

impl Log {
    fn new() -> Log {
        let mut bytes = file_header();
        seal_file_header(&mut bytes);
        let (chunk, writes) = (Vec::new(), Vec::new());
        let mut log = Log { bytes, chunk, index: 0, next: 0, records: 0, length: 0, at: 0, writes };
        log.line("header ok\n".len());
        log.open_chunk();
        log
    }

    /// A line of this length; before it the memory is written out if it is full.
    fn line(&mut self, length: usize) {
        self.write_out();
        self.at += length;
        self.length += length;
    }

    fn write_out(&mut self) {
        if self.at > FULL {
            self.writes.push(self.at);
            self.at = 0;
        }
    }

    fn open_chunk(&mut self) {
        self.chunk = vec![0; CHUNK];
        self.next = DATA;
        self.line(chunk_line(self.index));
    }

    fn close_chunk(&mut self) {
        let chunk = &mut self.chunk;
        put_chunk_header(chunk, self.next);
        seal_chunk(chunk);
        match refusal(self.index) {
            None => (),
            Some(2) => chunk[0] ^= 1,
            Some(4) => chunk[40] ^= 1,
            Some(5) => chunk[124] ^= 1,
            _ => {
                chunk[52] ^= 1;
                seal_chunk_header(chunk);
            }
        }
        self.bytes.append(chunk);
        self.index += 1;
    }

    fn next_chunk(&mut self) {
        self.close_chunk();
        self.open_chunk();
    }

    fn make_room(&mut self, size: usize) {
        if self.next + size > CHUNK {
            self.next_chunk();
        }
    }

    fn label(&self, number: u64) -> usize {
        format!("{} {number} ", self.next).len()
    }

    fn put_record(&mut self, number: u64, body: &[u8], shown: usize) {
        self.line(self.label(number) + shown + 1);
        let record = record(number, body);
        put(&mut self.chunk, self.next, &record);
        self.next += record.len();
        self.records += 1;
    }

    fn put_text(&mut self, number: u64, length: usize) {
        let body = text_body(self.next + 24, number, length);
        let shown = if length > TEXT { "refused 13".len() } else { length };
        self.put_record(number, &body, shown);
    }

    /// A record whose line has this length.
    fn put_line(&mut self, length: usize) {
        let number = self.records;
        self.put_text(number, length - self.label(number) - 1);
    }

    /// Lines until the memory holds just `over` bytes more than `FULL`.
    fn fill(&mut self, random: &mut Random, over: usize) {
        self.nearly_fill(random);
        self.put_line(40 + over);
    }

    /// The same, but the last of the lines is that of a chunk.
    fn fill_with_chunk(&mut self, random: &mut Random, over: usize) {
        self.nearly_fill(random);
        self.put_line(40 + over - chunk_line(self.index + 1));
        self.next_chunk();
    }

    /// Lines until the memory holds 40 bytes less than `FULL`. Two records more
    /// fit the chunk, so that no other line comes between.
    fn nearly_fill(&mut self, random: &mut Random) {
        if self.at + 200 > FULL {
            self.make_room(RECORD);
            self.put_line(400);
        }
        self.write_out();
        loop {
            self.make_room(3 * RECORD);
            let left = FULL - 40 - self.at;
            if left <= LONG_LINE {
                return self.put_line(left);
            }
            self.put_line(random.between(LONG_LINE / 3, LONG_LINE).min(left - 100));
        }
    }

    fn put_any(&mut self, random: &mut Random) {
        let number = random.number() >> random.pick(&[0, 20, 40, 60]);
        match random.below(40) {
            0 => self.put_text(number, TEXT - random.below(3)),
            1 => self.put_text(number, TEXT + 1 + random.below(3)),
            2 => self.put_text(number, random.between(10_000, TEXT)),
            3 => self.put_record(number, &unread_body(self.next + 24), "refused 11".len()),
            4..=8 => self.put_record(number, &[], "refused 8".len()),
            _ => self.put_text(number, random.between(TAGS, 300)),
        }
    }

    /// As many lines as a chunk can give.
    fn put_smallest_records(&mut self) {
        while self.next + 28 <= CHUNK {
            self.put_record(self.records, &[], "refused 8".len());
        }
    }

    fn put_chunks(&mut self, random: &mut Random, count: usize) {
        for _ in 0..count {
            self.next_chunk();
            match random.below(30) {
                0 => self.put_smallest_records(),
                _ => (0..random.below(12)).for_each(|_| self.put_any(random)),
            }
        }
    }
}

/// The log, which ends in `left_over` bytes.
pub fn long_log(left_over: usize) -> Log {
    let random = &mut Random::new(SEED);
    let mut log = Log::new();
    for over in OVER {
        log.put_chunks(random, CHUNKS_BETWEEN);
        log.fill(random, over);
        log.put_any(random);
    }
    log.put_chunks(random, CHUNKS_BETWEEN);
    log.fill_with_chunk(random, 1);
    // What ends where the memory ends: the longest text, and one that is too
    // long, which is seen only when the memory holds its front.
    log.fill(random, 0);
    log.put_text(u64::MAX, TEXT);
    log.fill(random, 0);
    log.put_text(1, TEXT + 1);
    log.close_chunk();
    if left_over > 0 {
        log.line(format!("rest {left_over}\n").len());
        log.bytes.resize(log.bytes.len() + left_over, 0x2a);
    }
    log
}

/// Asserts that the log is long enough and fills the memory as is meant.
pub fn assert_places(log: &Log) {
    for over in OVER.into_iter().filter(|over| *over > 0) {
        assert!(log.writes.contains(&(FULL + over)), "never {over} bytes over");
    }
    assert!(log.writes.iter().any(|at| *at > FULL + TEXT), "never the longest text");
    assert!(log.index > 500, "{} chunks", log.index);
}
