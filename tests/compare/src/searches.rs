//! Compares the searches of a chunk and of loose bytes, with rooms around the
//! number of records.

use crate::trial::Trial;
use first_reader::answers::Answer;
use second_reader::record;
use std::collections::BTreeSet;
use support::difference::{Difference, Outcome};
use support::lent::Lent;

type First = fn(&mut Lent<u8>, &mut Lent<u32>) -> Answer;
type Second = fn(&[u8], usize) -> Result<Vec<u32>, u32>;

/// A search, as both readers have it.
type Search = (&'static str, First, Second);

const CHUNK: Search = ("evtx_search_chunk", first_reader::search_chunk, record::search_chunk);
const BYTES: Search = ("evtx_search_bytes", first_reader::search_bytes, record::search_bytes);

/// Both searches, each with rooms around the number of records.
pub fn compare(trial: &mut Trial) -> Outcome {
    for search in [CHUNK, BYTES] {
        let whole = search.2(trial.bytes, usize::MAX);
        let count = whole.map_or(0, |list| list.len());
        let rooms = [0, count.saturating_sub(1), count, count + 1, count + 300];
        BTreeSet::from(rooms).into_iter().try_for_each(|room| with_room(trial, search, room))?;
    }
    Ok(())
}

/// Both searches with one room.
pub fn compare_room(trial: &mut Trial, room: usize) -> Outcome {
    with_room(trial, CHUNK, room)?;
    with_room(trial, BYTES, room)
}

fn with_room(trial: &mut Trial, (call, first, second): Search, room: usize) -> Outcome {
    let asked = format!("room {room}");
    let mut list = Lent::list(room);
    let first_answer = first(&mut trial.lent, &mut list);
    let expected = second(trial.bytes, room);
    let (number, offsets) = match &expected {
        Ok(offsets) => (0, offsets.as_slice()),
        Err(number) => (*number, &[][..]),
    };
    let second_answer = Answer { number, length: offsets.len() as u64 };
    trial.check(call, &asked, first_answer, second_answer)?;
    if !list.holds_only(offsets) {
        return Err(Difference { call, asked, found: list_difference(&list, offsets) });
    }
    Ok(())
}

fn list_difference(list: &Lent<u32>, offsets: &[u32]) -> String {
    let mut pairs = list.now().iter().zip(offsets).enumerate();
    match pairs.find(|(_, (first, second))| first != second) {
        Some((index, (first, second))) => {
            format!("entry {index}: first reader {first}, second reader {second}")
        }
        None => "the first reader changed entries beyond its answer, or the guards".to_string(),
    }
}
