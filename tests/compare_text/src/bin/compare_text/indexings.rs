//! Compares what the first reader's indexing program writes with what the second
//! reader does, with the samples' indexes, and with lines by hand: without a number,
//! with one that an entry has, and with one that none has.

use crate::program::run;
use compare_text::files::File;
use second_reader::indexing::{Indexes, Written};
use second_reader::numbers::DONE;
use std::path::Path;
use support::difference::{first_difference, Difference, Outcome};
use support::tally::Tally;

pub const INDEX_LINE: &str = "evtx_index, index";
pub const ENTRY_LINE: &str = "evtx_index, entry";
/// Where a number is given.
pub const FOUND_LINE: &str = "evtx_index, entry with the number";
pub const TOLD_LINE: &str = "evtx_index, standard error";
const CALL: &str = "evtx_index";

/// The indexes of a file, and what they say of two numbers.
pub fn compare(program: &Path, file: &File, tally: &mut Tally) -> Outcome {
    let indexes = Indexes::of(&file.bytes);
    let all = indexes.written(None);
    ask(program, file, &[], &all)?;
    note(tally, INDEX_LINE, ENTRY_LINE, &all.lines);
    for word in numbers(file, &indexes) {
        let due = indexes.written(Some(&word));
        ask(program, file, &[&word], &due)?;
        note(tally, INDEX_LINE, FOUND_LINE, &due.lines);
        note(tally, TOLD_LINE, FOUND_LINE, &due.told.concat());
    }
    Ok(())
}

/// A number that an entry has, where there is an entry, with zeros at its front for
/// some files; and one that none has, though for most files it would be found if it
/// were cut to 32, 48 or 64 bits.
fn numbers(file: &File, indexes: &Indexes) -> [String; 2] {
    let turn = file.seed as usize ^ file.bytes.len();
    let present: Vec<u64> = indexes.entries().map(|entry| entry.record_number).collect();
    let number = present.get(present.len() / 2).copied().unwrap_or(0);
    let absent = |other: &u128| present.iter().all(|number| u128::from(*number) != *other);
    let others = [1u128 << 64, 1 << 32, 1 << 48, 1].map(|more| u128::from(number) + more);
    let others: Vec<u128> = others.into_iter().filter(absent).collect();
    let zeros = "0".repeat(turn % 3);
    // 2^64 more is no record's number, so that there is one.
    [format!("{zeros}{number}"), others[turn % others.len()].to_string()]
}

/// Runs the program with these words. Both streams have to be those that are due.
fn ask(program: &Path, file: &File, words: &[&str], due: &Written) -> Outcome {
    let differ = |found: String| {
        let asked = format!("{words:?}, of {} bytes", file.bytes.len());
        Err(Difference { call: CALL, asked, found })
    };
    let output = match run(program, CALL, words, file) {
        Ok(output) => output,
        Err(found) => return differ(found),
    };
    let by_hand = if words.is_empty() { file.indexes.as_deref() } else { None };
    let errors = due.errors("standard input");
    let pairs = [
        (&output.stdout, Some(due.lines.as_bytes()), "second reader"),
        (&output.stdout, by_hand, "by hand"),
        (&output.stderr, Some(errors.as_bytes()), "second reader, standard error"),
    ];
    for (first, lines, whose) in pairs {
        if let Some(found) = lines.and_then(|lines| first_difference(first, lines, whose)) {
            return differ(found);
        }
    }
    Ok(())
}

/// Notes of each line the number that it gives: that which refuses an index, or the
/// last one of an entry.
fn note(tally: &mut Tally, index: &'static str, entry: &'static str, lines: &str) {
    for line in lines.lines() {
        let number = line.rsplit_once(' ').and_then(|(_, last)| last.parse().ok());
        let kind = if line.starts_with("index ") { index } else { entry };
        tally.note(kind, number.unwrap_or(DONE));
    }
}
