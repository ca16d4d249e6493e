//! Compares the calls for indexes: the index of a chunk, its entries by position
//! and by number, and an index with one entry more.

use crate::trial::Trial;
use first_reader::answers::Answer;
use log_writer::{put, Random};
use second_reader::index::{Index, Records, ENTRY_LENGTH};
use second_reader::numbers::{NO_RECORD, NO_ROOM, NUMBER_TOO_LARGE, WRONG_LENGTH};
use std::collections::BTreeSet;
use support::difference::{Difference, Outcome};
use support::lent::Lent;
use support::tally::Tally;

pub const BUILD: &str = "evtx_index_build";
pub const ENTRY: &str = "evtx_index_entry";
pub const FIND: &str = "evtx_index_find";
pub const ADD: &str = "evtx_index_add";
/// Not a call: the refusals of texts that the entries of built indexes hold.
pub const REFUSAL: &str = "refusals in entries";

/// Enough for the index of any chunk.
const ANY_ROOM: usize = 25_542;
/// As many entries as the index of a chunk can have are all asked for; of longer
/// indexes, and of additions, as many as `SOME`.
const ALL: usize = 2_322;
const SOME: usize = 24;
const NUMBERS: u64 = 1 << 48;

/// What is to be written, or the refusal.
pub type Due = Result<Vec<u8>, u32>;

/// What is due with a room, of what is due with any.
fn in_room(due: &Due, room: usize) -> Due {
    match due {
        Ok(bytes) if bytes.len() > room => Err(NO_ROOM),
        _ => due.clone(),
    }
}

/// Rooms around the length that is due.
pub fn rooms(due: &Due) -> BTreeSet<usize> {
    let length = due.as_ref().map_or(0, Vec::len);
    BTreeSet::from([0, length.saturating_sub(1), length, length + 1, length.max(ANY_ROOM)])
}

/// Answer and memory of a call that writes an index.
fn check(
    trial: &mut Trial,
    call: &'static str,
    asked: String,
    answer: Answer,
    out: &Lent<u8>,
    due: &Due,
) -> Outcome {
    let (number, bytes) = match due {
        Ok(bytes) => (0, bytes.as_slice()),
        Err(number) => (*number, &[][..]),
    };
    trial.check(call, &asked, answer, Answer { number, length: bytes.len() as u64 })?;
    if out.holds_only(bytes) {
        return Ok(());
    }
    let differs = out.now().iter().zip(bytes).position(|(first, second)| first != second);
    let found = match differs {
        Some(at) => {
            let entry = ENTRY_LENGTH * (at / ENTRY_LENGTH);
            let shown = |bytes: &[u8]| format!("{:x?}", &bytes[entry..entry + ENTRY_LENGTH]);
            format!("at {entry}: first reader {}, second {}", shown(out.now()), shown(bytes))
        }
        None => "the first reader changed memory beyond its answer, or the guards".to_string(),
    };
    Err(Difference { call, asked, found })
}

/// The index of the trial's chunk with one room.
pub fn build(trial: &mut Trial, room: usize, due: &Due) -> Outcome {
    let mut out = Lent::output(room);
    let answer = first_reader::index_build(&mut trial.lent, &mut out);
    check(trial, BUILD, format!("room {room}"), answer, &out, due)
}

/// An index with one entry more, of the trial's chunk, with one room. `behind`
/// stands after the index.
pub fn add(trial: &mut Trial, index: &[u8], behind: &[u8], room: usize, due: &Due) -> Outcome {
    let last = index.rchunks(ENTRY_LENGTH).next().unwrap_or(&[]);
    let asked = format!("an index of {} bytes, the last {last:x?}, room {room}", index.len());
    let mut lent = Lent::input(index, behind, room);
    let mut out = Lent::output(room);
    let answer = first_reader::index_add(&mut trial.lent, &mut lent, &mut out);
    if !lent.holds_only(&[]) {
        let found = "the first reader changed its index or the guards".to_string();
        return Err(Difference { call: ADD, asked, found });
    }
    check(trial, ADD, asked, answer, &out, due)
}

/// The same with rooms around what is due with any.
pub fn add_in_rooms(trial: &mut Trial, index: &[u8], behind: &[u8], due: &Due) -> Outcome {
    rooms(due).into_iter().try_for_each(|room| add(trial, index, behind, room, &in_room(due, room)))
}

/// The entry at a position of the trial's index.
pub fn entry(trial: &mut Trial, index: &Result<Index, u32>, position: u64) -> Outcome {
    let first = first_reader::index_entry(&mut trial.lent, position);
    let second = index.as_ref().map_err(|number| *number).and_then(|index| index.entry(position));
    trial.check(ENTRY, format_args!("position {position}"), first, second.into())
}

/// The first entry of the trial's index with a number.
pub fn find(trial: &mut Trial, index: &Result<Index, u32>, number: u64) -> Outcome {
    let first = first_reader::index_find(&mut trial.lent, number);
    let second = index.as_ref().map_err(|refused| *refused).and_then(|index| index.find(number));
    trial.check(FIND, format_args!("record number {number}"), first, second.into())
}

/// Positions of an index of so many entries, and some that it has not.
fn positions(random: &mut Random, count: usize) -> BTreeSet<u64> {
    let most = if count <= ALL { ALL } else { SOME };
    let mut positions = BTreeSet::from_iter(random.thin_out((0..count as u64).collect(), most));
    let count = count as u64;
    positions.extend([0, count.saturating_sub(1), count, count + 1]);
    // Cut to 16, 32 or 63 bits they would be there.
    positions.extend([1 << 16, 1 << 32, 1 << 63, u64::MAX]);
    positions
}

/// Numbers of an index's entries at these positions, and some beside them.
fn numbers(random: &mut Random, index: &Result<Index, u32>, at: &BTreeSet<u64>) -> BTreeSet<u64> {
    let entries = index.as_ref().map_or(&[][..], Index::entries);
    let there = at.iter().filter_map(|position| entries.get(*position as usize));
    let mut numbers: BTreeSet<u64> = there.map(|entry| entry.record_number).collect();
    let beside: Vec<u64> = random.thin_out(numbers.iter().copied().collect(), 3);
    numbers
        .extend(beside.iter().flat_map(|number| [number + 1, number + NUMBERS, number | 1 << 63]));
    numbers.extend([0, NUMBERS - 1, NUMBERS, u64::MAX, random.number()]);
    numbers
}

/// Entries of the trial's index by position and by number.
pub fn compare_index(trial: &mut Trial, seed: u64) -> Outcome {
    let random = &mut Random::new(seed);
    let index = Index::of(trial.bytes);
    let positions = positions(random, trial.bytes.len() / ENTRY_LENGTH);
    let numbers = numbers(random, &index, &positions);
    positions.into_iter().try_for_each(|position| entry(trial, &index, position))?;
    numbers.into_iter().try_for_each(|number| find(trial, &index, number))
}

/// Steps of additions from empty to so many entries: all where there are few, else
/// the first and the last ones, and some by chance.
fn steps(random: &mut Random, count: usize) -> BTreeSet<usize> {
    let mut steps = BTreeSet::from_iter(random.thin_out((0..count).collect(), SOME));
    steps.extend((0..=count.min(3)).flat_map(|step| [step, count - step]));
    steps
}

/// What is due of a step: the front of the index, with one entry more than the step
/// begins with.
fn due_of_step(index: &[u8], step: usize) -> Due {
    let end = ENTRY_LENGTH * (step + 1);
    index.get(..end).map(<[u8]>::to_vec).ok_or(NO_RECORD)
}

/// Additions from empty give the front of the index at each step.
fn additions(trial: &mut Trial, random: &mut Random, index: &[u8]) -> Outcome {
    let count = index.len() / ENTRY_LENGTH;
    for step in steps(random, count) {
        let (front, behind) = index.split_at(ENTRY_LENGTH * step);
        let due = due_of_step(index, step);
        if step < 2 || step + 2 > count {
            add_in_rooms(trial, front, behind, &due)?;
        } else {
            add(trial, front, behind, front.len() + random.pick(&[11, 11, 12, 300]), &due)?;
        }
    }
    Ok(())
}

/// Offsets that the last entry of an index may have: around those of listed
/// records, and others.
fn last_offsets(random: &mut Random, listed: &[u64]) -> BTreeSet<u16> {
    let mut offsets = BTreeSet::from([0, 511, 512, 65_535, random.number() as u16]);
    for offset in listed.first().into_iter().chain(&random.thin_out(listed.to_vec(), 3)) {
        offsets.extend([*offset as u16 - 1, *offset as u16, *offset as u16 + 1]);
    }
    offsets.extend(listed.last().map(|offset| *offset as u16));
    offsets
}

/// An addition behind an entry with any offset, and anything else in it.
fn behind_any_offset(trial: &mut Trial, random: &mut Random, records: &Records) -> Outcome {
    for offset in last_offsets(random, records.offsets()) {
        let mut index = random.bytes(2 * ENTRY_LENGTH);
        index.iter_mut().skip(10).step_by(ENTRY_LENGTH).for_each(|byte| *byte &= 0xf0);
        put(&mut index, ENTRY_LENGTH, &offset.to_be_bytes());
        let due = records.added(&index, usize::MAX);
        let room = random.pick(&[0, 32, 33, 34]);
        add(trial, &index, &[], room, &in_room(&due, room))?;
    }
    Ok(())
}

/// All calls, for bytes that are no chunk.
fn no_chunk(trial: &mut Trial) -> Outcome {
    for room in [0, ANY_ROOM] {
        build(trial, room, &Err(WRONG_LENGTH))?;
        add(trial, &[], &[], room, &Err(WRONG_LENGTH))?;
        add(trial, &[0xff; ENTRY_LENGTH], &[], room, &Err(WRONG_LENGTH))?;
    }
    Ok(())
}

/// The chunk with the numbers of its listed records cut to 48 bits; the same
/// records are listed.
fn with_small_numbers(chunk: &[u8], listed: &[u64]) -> Vec<u8> {
    let mut cut = chunk.to_vec();
    for offset in listed {
        put(&mut cut, *offset as usize + 14, &[0, 0]);
    }
    cut
}

fn note_refusals(trial: &mut Trial, index: &[u8]) {
    for entry in Index::of(index).expect("an index").entries() {
        trial.note(REFUSAL, entry.refusal);
    }
}

/// All calls, for a chunk.
fn of_records(trial: &mut Trial, records: &Records, seed: u64) -> Result<Due, Difference> {
    let random = &mut Random::new(seed);
    let due = records.built(usize::MAX);
    rooms(&due).into_iter().try_for_each(|room| build(trial, room, &in_room(&due, room)))?;
    behind_any_offset(trial, random, records)?;
    if let Ok(index) = &due {
        note_refusals(trial, index);
        compare_index(&mut trial.on(index, &[]), seed)?;
        additions(trial, random, index)?;
    }
    Ok(due)
}

/// All calls for the trial's bytes as a chunk; where they are refused with 15,
/// also with smaller numbers.
pub fn compare_chunk(trial: &mut Trial, seed: u64) -> Outcome {
    let Ok(records) = Records::of(trial.bytes) else { return no_chunk(trial) };
    if of_records(trial, &records, seed)? != Err(NUMBER_TOO_LARGE) {
        return Ok(());
    }
    let cut = with_small_numbers(trial.bytes, records.offsets());
    let records = Records::of(&cut).expect("a chunk");
    match of_records(&mut trial.on(&cut, &[]), &records, seed) {
        Ok(_) => Ok(()),
        Err(Difference { call, asked, found }) => {
            let asked = format!("{asked}, where the record numbers are cut to 48 bits");
            Err(Difference { call, asked, found })
        }
    }
}

/// The index of the trial's chunk and the additions that give it, with just enough
/// room: for chunks in which it matters what an entry says of a text. Answers what
/// is due.
pub fn compare_texts(trial: &mut Trial, seed: u64) -> Result<Due, Difference> {
    let due = Records::of(trial.bytes).and_then(|records| records.built(usize::MAX));
    build(trial, due.as_ref().map_or(0, Vec::len), &due)?;
    if let Ok(index) = &due {
        note_refusals(trial, index);
        for step in steps(&mut Random::new(seed), index.len() / ENTRY_LENGTH) {
            let (front, behind) = index.split_at(ENTRY_LENGTH * step);
            add(trial, front, behind, front.len() + ENTRY_LENGTH, &due_of_step(index, step))?;
        }
    }
    Ok(due)
}

/// Entries of an index of any bytes, and one more of a chunk.
pub fn compare_pair(chunk: &[u8], index: &[u8], seed: u64, tally: &mut Tally) -> Outcome {
    compare_index(&mut Trial::new(index, &[], seed, tally), seed)?;
    let due = Records::of(chunk).and_then(|records| records.added(index, usize::MAX));
    add_in_rooms(&mut Trial::new(chunk, &[], seed, tally), index, &[], &due)
}
