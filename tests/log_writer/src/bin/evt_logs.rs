//! Writes EVT logs of many kinds into a folder, for the test of the program that lists
//! them: KIND-NN.evt, and, where all records can be read, KIND-NN.numbers with the record
//! numbers that the service gave, a line each.
//!
//! `evt_logs FOLDER [SEED]`: the logs follow from SEED, or from a fixed one.

use log_writer::evt::*;
use log_writer::{put_u32, Random};
use std::io;
use std::path::{Path, PathBuf};

const SEED: u64 = 0x0065_7674_0000_0018;
const MOST: usize = 16_777_216;
/// Where the header has the offsets of the first and of the next record.
const FIRST: usize = 16;
const CURSOR: usize = 20;
/// An offset at which no walk over records ends.
const NOWHERE: u32 = 49;

/// A file, and the numbers of its records if all of them can be read.
type Log = (Vec<u8>, Option<Vec<u32>>);
type Make = fn(&mut Random, usize) -> Log;

const KINDS: [(&str, usize, Make); 20] = [
    ("clean", 60, |random, _| sound(small(random, |_| true), false)),
    ("dirty", 60, |random, _| sound(small(random, |_| true), true)),
    ("empty", 4, |_, round| sound(Service::new([88, 400][round / 2], 1), round % 2 == 1)),
    ("long", 4, |random, round| sound(random_log(random, 65_536 - HEADER), round % 2 == 1)),
    ("wrapped", 40, |random, round| sound(small(random, crosses_the_end), round % 2 == 1)),
    ("fill", 40, |random, round| sound(small(random, has_fill), round % 2 == 1)),
    ("public", 60, public),
    ("fill_damaged", 20, fill_damaged),
    ("fill_length", 68, fill_length),
    ("header", 48, header_field),
    ("record", 68, record_field),
    ("trailer", 40, trailer_field),
    ("no_trailer", 10, no_trailer),
    ("two_trailers", 20, two_trailers),
    ("flipped", 60, flipped),
    ("cut", 60, cut),
    ("circle", 20, circle),
    ("short", 50, |_, round| (file_with(0, &[])[..round.min(HEADER)].to_vec(), None)),
    ("limit", 2, limit),
    ("longest", 1, longest),
];

/// A log, closed or as a power cut leaves it.
fn sound(log: Service, dirty: bool) -> Log {
    let numbers = log.kept().map(|kept| kept.number).collect();
    (if dirty { log.dirty() } else { log.closed() }, Some(numbers))
}

/// Logs by chance until one is as it has to be.
fn small(random: &mut Random, fits: fn(&Service) -> bool) -> Service {
    let lengths = [40, 120, 200, 300, 500, 900, 2_000];
    let mut next = || {
        let behind = random.pick(&lengths) + 4 * random.below(14);
        random_log(random, behind)
    };
    std::iter::repeat_with(&mut next).find(fits).expect("no end of logs")
}

/// Logs that public readers read too: all times are below 2^31.
fn public(random: &mut Random, _: usize) -> Log {
    let mut log = Service::new(HEADER + 4 * random.between(100, 600), 1);
    for _ in 0..random.below(60) {
        let event = random_event(random, 12);
        log.write(Event { generated: event.generated / 2, written: event.written / 2, ..event });
    }
    sound(log, false)
}

fn length_of(kept: &Kept) -> usize {
    kept.event.record(kept.number).len()
}

fn crosses_the_end(log: &Service) -> bool {
    log.kept().any(|kept| kept.offset + length_of(kept) > log.closed().len())
}

/// Whether a record does not begin where the one before it ends.
fn has_fill(log: &Service) -> bool {
    fill_place(log).is_some()
}

/// Where fill words stand between two records.
fn fill_place(log: &Service) -> Option<usize> {
    let length = log.closed().len();
    let ends = log.kept().map(|kept| after(length, kept.offset, length_of(kept)));
    let mut places = ends.zip(log.kept().skip(1));
    places.find(|(end, next)| *end != next.offset).map(|(end, _)| end)
}

fn fill_damaged(random: &mut Random, round: usize) -> Log {
    let log = small(random, has_fill);
    let place = fill_place(&log).expect("a log with fill words");
    let (mut file, _) = sound(log, round % 2 == 1);
    let at = random.between(place, file.len() - 1);
    file[at] ^= 1 << random.below(8);
    (file, None)
}

/// Two records, of which the first stands behind the second, with so many bytes of fill
/// words, from none to more than the service writes, behind it.
fn fill_length(random: &mut Random, round: usize) -> Log {
    let second = random_event(random, 9).record(8);
    let first = random_event(random, 9).record(7);
    let fill = [0x27, 0, 0, 0].repeat(18);
    let behind = [&second[..], &end_record([0; 4]), &first, &fill[..round]].concat();
    let mut file = file_with(0, &behind);
    put_u32(&mut file, FIRST, (HEADER + second.len() + END_RECORD) as u32);
    put_u32(&mut file, CURSOR, (HEADER + second.len()) as u32);
    (file, (round % 4 == 0 && round < FIXED).then(|| vec![7, 8]))
}

fn with_records(random: &mut Random) -> Service {
    small(random, |log| log.kept().count() > 0)
}

fn header_field(random: &mut Random, round: usize) -> Log {
    let (mut file, _) = sound(with_records(random), random.once_in(2));
    wrong_header_field(random, &mut file, HEADER_FIELDS[round % HEADER_FIELDS.len()]);
    (file, None)
}

fn record_field(random: &mut Random, round: usize) -> Log {
    let log = with_records(random);
    let records: Vec<_> = log.kept().map(|kept| (kept.offset, length_of(kept))).collect();
    let (offset, length) = random.pick(&records);
    let (mut file, _) = sound(log, random.once_in(2));
    let field = RECORD_FIELDS.get(round % 17).copied().unwrap_or(second_length(length));
    wrong_field(random, &mut file, offset, field);
    (file, None)
}

fn trailer_field(random: &mut Random, round: usize) -> Log {
    let log = with_records(random);
    let mut file = log.dirty();
    let field = END_RECORD_FIELDS[round % END_RECORD_FIELDS.len()];
    wrong_field(random, &mut file, log.end(), field);
    (file, None)
}

fn no_trailer(random: &mut Random, round: usize) -> Log {
    let log = with_records(random);
    let marks = after(log.closed().len(), log.end(), 4);
    let (mut file, _) = sound(log, round % 2 == 1);
    break_marks(random, &mut file, marks);
    (file, None)
}

fn two_trailers(random: &mut Random, round: usize) -> Log {
    let log = with_records(random);
    let marks = after(log.closed().len(), log.end(), 4);
    let (mut file, _) = sound(log, round % 2 == 1);
    put_second_trailer(&mut file, marks, 16 + round);
    (file, None)
}

fn flipped(random: &mut Random, round: usize) -> Log {
    let (mut file, _) = sound(with_records(random), round % 2 == 1);
    for _ in 0..random.between(1, 4) {
        let at = random.below(file.len());
        file[at] ^= 1 << random.below(8);
    }
    (file, None)
}

/// Too short, or with bytes behind it.
fn cut(random: &mut Random, round: usize) -> Log {
    let (mut file, _) = sound(with_records(random), round % 2 == 1);
    let length = file.len();
    let lengths = [random.below(length), length - 1, length - 4, length + 1, length + 40];
    file.resize(random.pick(&lengths), 0);
    (file, None)
}

/// Records and fill words that take all that stands behind the header, moved so that one
/// goes on behind the file's end; the cursor is at no record.
fn circle(random: &mut Random, round: usize) -> Log {
    let number = |number| random_event(random, 9).record(number);
    let mut behind = (1..5).map(number).collect::<Vec<_>>().concat();
    behind.extend([0x27, 0, 0, 0].repeat(round % 4));
    let mut file = file_with(0, &behind);
    let by = if round % 4 == 0 { 4 * random.below(behind.len() / 4) } else { 0 };
    let first = after(file.len(), HEADER, by) as u32;
    put_u32(&mut file, FIRST, first);
    put_u32(&mut file, CURSOR, NOWHERE);
    (moved(&file, by), None)
}

/// As long as a log may be, and a byte longer.
fn limit(random: &mut Random, round: usize) -> Log {
    let mut log = Service::new(MOST, 1);
    (0..50).for_each(|_| assert!(log.write(random_event(random, 2_000))));
    let (mut file, numbers) = sound(log, true);
    file.resize(MOST + round, 0);
    (file, numbers.filter(|_| round == 0))
}

/// A record that takes all that stands behind the header, of units whose text is longest.
fn longest(_: &mut Random, _: usize) -> Log {
    let most = MOST - HEADER - FIXED - 4;
    let mut body = [b'"', 0].repeat(most / 2);
    body[most - 2..].fill(0);
    let fields = Fields {
        string_count: 1,
        string_offset: FIXED as u32,
        number: u32::MAX,
        ..Fields::default()
    };
    let mut file = file_with(0, &record(&fields, &body));
    put_u32(&mut file, CURSOR, NOWHERE);
    (file, None)
}

fn write(folder: &Path, name: &str, (file, numbers): &Log) -> io::Result<()> {
    let path = |end: &str| -> PathBuf { folder.join(format!("{name}.{end}")) };
    std::fs::write(path("evt"), file)?;
    match numbers {
        Some(numbers) => {
            let lines: String = numbers.iter().map(|number| format!("{number}\n")).collect();
            std::fs::write(path("numbers"), lines)
        }
        None => Ok(()),
    }
}

fn main() -> io::Result<()> {
    let words: Vec<String> = std::env::args().collect();
    let folder = words.get(1).expect("evt_logs FOLDER [SEED]");
    let seed = words.get(2).map_or(SEED, |seed| seed.parse().expect("a SEED in decimal"));
    let mut random = Random::new(seed);
    for (kind, rounds, make) in KINDS {
        for round in 0..rounds {
            let log = make(&mut random, round);
            write(Path::new(folder), &format!("{kind}-{round:02}"), &log)?;
        }
    }
    Ok(())
}
