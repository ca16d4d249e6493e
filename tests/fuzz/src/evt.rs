//! The bytes of an input as an EVT log, and as a record of one.

use crate::form::Head;
use compare::evt;
use compare::trial::Trial;
use log_writer::evt::{file_with, put_round, HEADER, MAGIC};
use second_reader::evt::{header, text, Log};
use second_reader::numbers::field;
use std::collections::BTreeSet;
use std::iter::successors;
use support::difference::Outcome;

/// How many records are asked for from an offset on.
const MOST_RECORDS: usize = 8;

/// A clean log of one record, and of as many bytes more as the base says. It stands at
/// the offset, or at 48 where the log does not reach so far. The bytes are those
/// between its magic and its second length.
pub fn log_of_record(head: &Head, bytes: &[u8]) -> Vec<u8> {
    let length = ((bytes.len() + 12) as u32).to_le_bytes();
    let record = [&length[..], &MAGIC, bytes, &length].concat();
    let mut file = file_with(0, &vec![0; record.len() + usize::from(head.base)]);
    let inside = (HEADER as u64..file.len() as u64).contains(&head.offset);
    let offset = if inside { head.offset as usize } else { HEADER };
    put_round(&mut file, offset, &record);
    file
}

/// The calls at the offset and with the room of the input, and then at more offsets
/// with rooms around what is due.
pub fn log(head: &Head, trial: &mut Trial) -> Outcome {
    let (file, offset, room) = (trial.bytes, head.offset, head.room);
    evt::header(trial, room, &header(file, room))?;
    evt::text(trial, offset, room, &text(file, offset, room))?;
    evt::compare(trial, offsets(file, offset))
}

/// The offset, the two that the header says, and where records from each of them on end.
fn offsets(file: &[u8], offset: u64) -> BTreeSet<u64> {
    let Ok(log) = Log::of(file) else { return BTreeSet::from([offset]) };
    let next = |at: &u64| Some(log.record(*at).ok()?.next);
    let stated = [16, 20].map(|at| field(log.header(), at, 4));
    let firsts = stated.into_iter().chain([offset]);
    firsts.flat_map(|first| successors(Some(first), next).take(MOST_RECORDS)).collect()
}

#[cfg(test)]
mod tests {
    use super::*;
    use crate::form::{Calls, Form};
    use log_writer::evt::{get_round, random_event};
    use log_writer::Random;

    #[test]
    fn a_record_stands_at_the_offset() {
        let record = random_event(&mut Random::new(1), 9).record(7);
        let bytes = &record[8..record.len() - 4];
        let end = (HEADER + record.len() + 10) as u64;
        for (offset, place) in [(48, 48), (49, 49), (end - 1, end - 1), (end, 48), (47, 48)] {
            let (form, calls) = (Form::EvtRecord, Calls::Evt);
            let head = Head { form, base: 10, flags: 0, calls, offset, room: 0 };
            let file = log_of_record(&head, bytes);
            assert_eq!(file.len() as u64, end);
            assert_eq!(get_round(&file, place as usize, record.len()), record);
            let next = Log::of(&file).and_then(|log| log.record(place)).map(|at| at.length);
            assert_eq!(next, Ok(record.len() as u64));
        }
    }
}
