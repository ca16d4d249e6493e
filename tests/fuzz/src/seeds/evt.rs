//! The EVT logs that a fuzzer begins with: sound ones, records and trailers that go on
//! behind the file's end, trailers that are lacking or one too many, wrong fields,
//! strings that are not closed, and files of lengths around the bounds.

use super::head;
use crate::form::{Calls, Form, Head};
use log_writer::evt::*;
use log_writer::{u16s, utf16, Random};

const SEED: u64 = 0x0065_7674_7800_000e;
/// None, too small for a text and for a header, just enough for a header, and more.
const ROOMS: [usize; 5] = [0, 9, 47, 48, 400];

/// A log, and the offset at which it is asked.
type Asked = (Vec<u8>, usize);

pub fn all() -> Vec<Vec<u8>> {
    let random = &mut Random::new(SEED);
    let mut logs = sound(random);
    logs.extend(records_at_the_end(random));
    logs.extend(trailers_at_the_end(random));
    logs.extend(trailer_counts(random));
    logs.extend(wrong_fields(random));
    logs.extend(strings());
    logs.extend(lengths());
    let logs = logs.into_iter().enumerate();
    let whole = logs.map(|(turn, (file, offset))| asked(Form::Loose, turn, offset).input(&file));
    whole.chain(single_records(random)).collect()
}

fn asked(form: Form, turn: usize, offset: usize) -> Head {
    let room = ROOMS[turn % ROOMS.len()];
    Head { offset: offset as u64, room, ..head(form, turn, Calls::Evt) }
}

/// Records alone at many offsets, some of them behind the log's end.
fn single_records(random: &mut Random) -> Vec<Vec<u8>> {
    let one = |turn: usize| {
        let record = random_event(random, 12).record(turn as u32);
        let bytes = &record[8..record.len() - 4];
        asked(Form::EvtRecord, turn, HEADER + 5 * turn).input(bytes)
    };
    (0..40).map(one).collect()
}

/// A log with records, and the offset and length of its first one.
fn with_records(random: &mut Random) -> (Service, usize, usize) {
    let mut log = random_log(random, 600);
    log.write(random_event(random, 5));
    let first = log.kept().next().map(|kept| (kept.offset, kept.event.record(0).len()));
    let (offset, length) = first.expect("a record was written");
    (log, offset, length)
}

/// Clean, and dirty with a trailer.
fn sound(random: &mut Random) -> Vec<Asked> {
    let mut logs = Vec::new();
    for behind in [40, 120, 300, 700, 1_500, 3_000] {
        let log = random_log(random, behind);
        let offset = log.kept().next().map_or(HEADER, |kept| kept.offset);
        logs.extend([(log.closed(), offset), (log.dirty(), offset)]);
    }
    logs
}

/// Clean logs whose first record is cut after each of some of its bytes.
fn records_at_the_end(random: &mut Random) -> Vec<Asked> {
    let mut logs = Vec::new();
    for before in [1, 3, 4, 6, 8, 9, 18, 27, 38, 55, 56, 57, 59] {
        let (log, first, length) = with_records(random);
        let mut file = moved_to_the_end(&log.closed(), first, before);
        let offset = file.len() - before;
        let next = after(file.len(), offset, length);
        set_numbers(&mut file, [offset as u32, next as u32, 2, 1]);
        logs.push((file, offset));
    }
    logs
}

/// The trailer's marks and numbers, cut after each byte.
fn trailers_at_the_end(random: &mut Random) -> Vec<Asked> {
    let log = random_log(random, 200);
    let file = log.dirty();
    let marks = after(file.len(), log.end(), 4);
    (1..=32).map(|before| (moved_to_the_end(&file, marks, before), HEADER)).collect()
}

/// A second trailer, inside the first one or behind it; and none.
fn trailer_counts(random: &mut Random) -> Vec<Asked> {
    let mut logs = Vec::new();
    for apart in [15, 16, 17, 31, 32, 33, 60] {
        let (log, first, _) = with_records(random);
        let marks = after(log.dirty().len(), log.end(), 4);
        let mut two = log.dirty();
        put_second_trailer(&mut two, marks, apart);
        let mut none = log.dirty();
        break_marks(random, &mut none, marks);
        logs.extend([(two, first), (none, first)]);
    }
    logs
}

/// Each field of a header, of a record and of a trailer.
fn wrong_fields(random: &mut Random) -> Vec<Asked> {
    let (log, first, length) = with_records(random);
    let of_header = HEADER_FIELDS.map(|field| {
        let mut file = log.dirty();
        wrong_header_field(random, &mut file, field);
        (file, first)
    });
    let of_record = RECORD_FIELDS.into_iter().chain([second_length(length)]);
    let of_record = of_record.map(|field| (first, field));
    let of_trailer = END_RECORD_FIELDS.map(|field| (log.end(), field));
    let others = of_record.chain(of_trailer).map(|(at, field)| {
        let mut file = log.dirty();
        wrong_field(random, &mut file, at, field);
        (file, first)
    });
    of_header.into_iter().chain(others).collect()
}

/// Strings that are closed, or not, from offsets inside the record and outside.
fn strings() -> Vec<Asked> {
    let halves = u16s(&[0xd83d, 0, 0xde00, 0]);
    let cases: [(u16, u32, &[u8]); 13] = [
        (0, 0xffff_ffff, &[]),
        (1, 56, &utf16("closed\0")),
        (1, 56, &utf16("unclosed")),
        (2, 56, &utf16("one\0")),
        (2, 56, &utf16("one\0two")),
        (3, 57, &[&[0xee][..], &utf16("ä&\0\0\u{1f600}\0")].concat()),
        (2, 56, &halves),
        (1, 55, &[0; 3]),
        (1, 59, &[0; 4]),
        (1, 60, &[0; 4]),
        (1, 0x8000_0038, &[0; 4]),
        (20, 56, &[0; 40]),
        (21, 56, &[0; 40]),
    ];
    cases
        .map(|(count, from, body)| (file_of_record(&Fields::distinct(count, from), body), HEADER))
        .to_vec()
}

/// A header and less; a trailer, the smallest record, and a byte less of each.
fn lengths() -> Vec<Asked> {
    let header = file_with(0, &[]);
    let trailer = file_with(DIRTY, &trailer([48, 48, 1, 0]));
    let record = file_of_record(&Fields::default(), &[]);
    let fronts = [
        (&header, 0),
        (&header, 47),
        (&header, 48),
        (&trailer, 48),
        (&trailer, 79),
        (&trailer, 80),
        (&record, 107),
        (&record, 108),
    ];
    fronts.map(|(file, length)| (file[..length].to_vec(), HEADER)).to_vec()
}

#[cfg(test)]
mod tests {
    use super::*;
    use crate::{one_input, LONGEST};
    use compare::evt::EXPECTED;
    use second_reader::evt::{header, record};
    use support::tally::Tally;

    /// Both readers agree, each call answers each of its numbers, and none is too long.
    #[test]
    fn every_number_is_reached() {
        let mut tally = Tally::default();
        for seed in all() {
            assert!(seed.len() <= LONGEST);
            assert!(one_input(&seed, &mut tally).is_ok());
        }
        assert!(tally.complete(&EXPECTED));
    }

    #[test]
    fn what_goes_on_behind_the_end_is_read() {
        let random = &mut Random::new(SEED);
        for (file, offset) in records_at_the_end(random) {
            assert!(record(&file, offset as u64).is_ok_and(|at| at.next < offset as u64));
        }
        for (file, _) in trailers_at_the_end(random) {
            assert!(header(&file, HEADER).is_ok());
        }
    }
}
