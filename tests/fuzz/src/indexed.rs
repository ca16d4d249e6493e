//! The bytes of an input as a chunk whose index is asked for, and as an index.

use crate::bases::base;
use crate::form::Head;
use compare::indexes::{add, build, entry, find};
use compare::trial::Trial;
use log_writer::put;
use second_reader::index::{Index, Records, ENTRY_LENGTH};
use std::collections::BTreeSet;
use support::difference::Outcome;
use support::tally::Tally;

/// All texts of a chunk with more records would take too long.
const MOST_RECORDS: usize = 40;

/// An entry with the offset, and zeros for all else.
fn entry_at(offset: u16) -> [u8; ENTRY_LENGTH] {
    let mut bytes = [0; ENTRY_LENGTH];
    put(&mut bytes, 0, &offset.to_be_bytes());
    bytes
}

pub fn chunk(head: &Head, trial: &mut Trial) -> Outcome {
    let records = Records::of(trial.bytes);
    let index = entry_at(head.offset as u16);
    let records = records.as_ref().map_err(|number| *number);
    let added = records.and_then(|records| records.added(&index, head.room));
    add(trial, &index, &[], head.room, &added)?;
    if records.is_ok_and(|records| records.offsets().len() > MOST_RECORDS) {
        return Ok(());
    }
    let built = |room| records.and_then(|records| records.built(room));
    let length = built(usize::MAX).map_or(0, |index| index.len());
    let rooms = BTreeSet::from([head.room, length.saturating_sub(1), length]);
    rooms.into_iter().try_for_each(|room| build(trial, room, &built(room)))
}

pub fn entries(head: &Head, bytes: &[u8], tally: &mut Tally) -> Outcome {
    let index = Index::of(bytes);
    let trial = &mut Trial::new(bytes, &[], head.room as u64, tally);
    entry(trial, &index, head.offset)?;
    let entries = index.as_ref().map_or(&[][..], Index::entries);
    let one = entries.get(head.room % entries.len().max(1));
    for number in one.map(|entry| entry.record_number).into_iter().chain([head.offset]) {
        find(trial, &index, number)?;
    }
    let chunk = base(head.base);
    let due = Records::of(chunk).and_then(|records| records.added(bytes, head.room));
    add(&mut Trial::new(chunk, &[], head.offset, tally), bytes, &[], head.room, &due)
}
