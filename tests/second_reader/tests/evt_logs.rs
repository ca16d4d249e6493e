//! EVT logs as the service writes them: the records that were not given up are read,
//! with the texts that their events give.

use log_writer::evt::*;
use log_writer::{get_u32, Random};
use second_reader::evt::{header, record, text, At, Log};

const SEED: u64 = 0x0065_7674_0000_0002;
const LENGTHS: [usize; 5] = [120, 300, 500, 900, 3_000];

fn logs() -> Vec<Service> {
    let random = &mut Random::new(SEED);
    (0..400).map(|round| random_log(random, LENGTHS[round % 5])).collect()
}

/// A character by the paper's rule. What decodes UTF-16 is the standard library.
fn escaped(character: char) -> String {
    match character {
        '&' => "&amp;".to_string(),
        '<' => "&lt;".to_string(),
        '>' => "&gt;".to_string(),
        '"' => "&quot;".to_string(),
        '\'' => "&apos;".to_string(),
        '\t' | '\n' | '\r' => format!("&#{};", character as u32),
        '\0'..='\x1f' | '\u{fffe}' | '\u{ffff}' => '\u{fffd}'.to_string(),
        _ => character.to_string(),
    }
}

/// The text that an event gives.
fn due(number: u32, event: &Event) -> String {
    let Event { written, id, kind, category, .. } = event;
    let numbers = format!("{number} {written} {id} {kind} {category}");
    let string = |units: &Vec<u16>| -> String {
        String::from_utf16_lossy(units).chars().map(escaped).collect()
    };
    event.strings.iter().fold(numbers, |text, units| text + " " + &string(units))
}

/// From the header's first offset to its next one; words 0x27 lead to 48.
fn walked(file: &[u8]) -> Vec<(u64, At)> {
    let log = Log::of(file).expect("a sound log");
    let [mut offset, end] = [16, 20].map(|at| u64::from(get_u32(log.header(), at)));
    let mut walked = Vec::new();
    while offset != end {
        match log.record(offset) {
            Ok(at) => {
                walked.push((offset, at));
                offset = at.next;
            }
            Err(number) => {
                assert_eq!((number, get_u32(file, offset as usize)), (18, 0x27));
                offset = 48;
            }
        }
    }
    walked
}

#[test]
fn walks_find_the_records_that_were_kept() {
    for log in logs() {
        let length = |kept: &Kept| kept.event.record(0).len();
        let at = |kept: &Kept| At {
            length: length(kept) as u64,
            number: kept.number.into(),
            written_time: kept.event.written.into(),
            next: after(log.closed().len(), kept.offset, length(kept)) as u64,
        };
        let due: Vec<_> = log.kept().map(|kept| (kept.offset as u64, at(kept))).collect();
        assert_eq!(walked(&log.closed()), due);
        assert_eq!(walked(&log.dirty()), due);
    }
}

#[test]
fn headers_are_repaired() {
    for (log, by) in logs().into_iter().zip(0..) {
        let clean = log.closed();
        assert_eq!(header(&clean, 48), Ok(clean[..48].to_vec()));
        // Wherever it stands the trailer says what the header of a closed log says.
        assert_eq!(header(&log.dirty(), 48), Ok(clean[..48].to_vec()));
        assert_eq!(header(&moved(&log.dirty(), by), 48), Ok(clean[..48].to_vec()));
    }
}

#[test]
fn texts_are_those_of_the_events() {
    for (log, by) in logs().into_iter().zip(0..) {
        let file = moved(&log.dirty(), by);
        for Kept { offset, number, event } in log.kept() {
            let place = after(file.len(), *offset, by) as u64;
            let due = due(*number, event).into_bytes();
            assert_eq!(text(&file, place, due.len()), Ok(due.clone()));
            assert_eq!(text(&file, place, due.len() - 1), Err(13));
            // Inside of it no other one begins.
            let length = event.record(0).len();
            for inside in 1..length {
                assert_eq!(record(&file, after(file.len(), *offset, by + inside) as u64), Err(18));
            }
        }
    }
}

/// Fields that a text does not show may hold anything; without the right lengths and
/// magic there is no record.
#[test]
fn damaged_records() {
    let random = &mut Random::new(SEED);
    for log in logs() {
        let file = log.closed();
        let Some(Kept { offset, number, event }) = log.kept().last() else { continue };
        let due = due(*number, event).into_bytes();
        let mut asked = |field: Field| {
            let mut other = file.clone();
            wrong_field(random, &mut other, *offset, field);
            text(&other, *offset as u64, usize::MAX)
        };
        for (at, width) in [(12, 4), (30, 2), (32, 4), (40, 4), (44, 4), (48, 4), (52, 4)] {
            assert_eq!(asked((at, width)), Ok(due.clone()), "{at}");
        }
        for (at, width) in [(8, 4), (16, 4), (20, 4), (24, 2), (28, 2)] {
            assert!(asked((at, width)).is_ok_and(|other| other != due), "{at}");
        }
        for field in [(0, 4), (4, 4), second_length(event.record(0).len())] {
            assert_eq!(asked(field), Err(18), "{field:?}");
        }
    }
}

#[test]
fn damaged_trailers() {
    let random = &mut Random::new(SEED);
    for log in logs() {
        let file = log.dirty();
        let marks = after(file.len(), log.end(), 4);
        let mut none = file.clone();
        break_marks(random, &mut none, marks);
        assert_eq!(header(&none, 48), Err(17));
        let mut two = file.clone();
        put_second_trailer(&mut two, marks, random.between(16, file.len() - HEADER - 16));
        assert_eq!(header(&two, 48), Err(17));
        assert_eq!((record(&two, 48), text(&two, 48, 0)), (Err(17), Err(17)));
        for field in [(0, 4), (36, 4)] {
            let mut other = file.clone();
            wrong_field(random, &mut other, log.end(), field);
            assert_eq!(header(&other, 48), header(&file, 48));
        }
    }
}
