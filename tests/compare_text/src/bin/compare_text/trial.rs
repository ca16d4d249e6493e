//! One question to both readers: the length of the text of each record it asks
//! for, the text with rooms around that length, and the index of the chunk.

use compare::indexes::{compare_texts, BUILD};
use compare::texts::{self, with_room, Answer};
use compare::trial::Trial;
use compare_text::question::{Expected, Question};
use second_reader::index::{Entry, Index};
use second_reader::numbers::{DONE, NO_ROOM};
use std::collections::BTreeSet;
use support::difference::{Difference, Outcome};
use support::tally::Tally;

const LARGE: usize = 65_536;

/// Compares both readers, and the answer by hand if there is one.
pub fn compare(question: &Question, tally: &mut Tally) -> Outcome {
    let mut trial = Trial::new(&question.chunk, &question.behind, question.seed, tally);
    let expected = question.expected.as_ref();
    for offset in &question.offsets {
        let length = texts::length(&mut trial, *offset, expected.map(Expected::length))?;
        for room in rooms(length) {
            let hand = expected.map(|expected| by_hand(expected, room));
            with_room(&mut trial, *offset, room, hand)?;
        }
    }
    // The other questions of a round are mostly of the same chunk, with an edit.
    match question.part {
        0 => index(&mut trial, question),
        _ => Ok(()),
    }
}

/// The index of the question's chunk. What an entry says of a text that was worked
/// out by hand has to be so by hand too.
fn index(trial: &mut Trial, question: &Question) -> Outcome {
    let built = compare_texts(trial, question.seed)?;
    let (Some(expected), Ok(index)) = (&question.expected, built) else { return Ok(()) };
    let due = by_hand(expected, LARGE).err().unwrap_or(DONE);
    let asked = |entry: &&Entry| question.offsets.contains(&entry.offset);
    let index = Index::of(&index).expect("an index");
    match index.entries().iter().filter(asked).find(|entry| entry.refusal != due) {
        None => Ok(()),
        Some(Entry { offset, refusal, .. }) => {
            let found = format!("both readers: refusal {refusal}\nby hand: {due}");
            Err(Difference { call: BUILD, asked: format!("entry of offset {offset}"), found })
        }
    }
}

/// Rooms for a text of the length that the first reader answered: a text that is
/// refused for want of room is written where there is room for that length.
fn rooms(length: Option<usize>) -> BTreeSet<usize> {
    let mut rooms = BTreeSet::from([0, LARGE]);
    if let Some(length) = length {
        rooms.extend([length.saturating_sub(1), length, length + 1, length + 300]);
        if length > LARGE {
            rooms.insert(length + LARGE);
        }
    }
    rooms
}

/// The answer by hand for a room.
fn by_hand(expected: &Expected, room: usize) -> Answer {
    match expected {
        Expected::Text(text) if text.len() <= room => Ok(text.clone()),
        Expected::Text(_) | Expected::Long(_) => Err(NO_ROOM),
        Expected::Refused(number) => Err(*number),
    }
}
