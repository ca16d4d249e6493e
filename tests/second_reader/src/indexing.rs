//! The indexing program as a function of the file's bytes and of the number that
//! it is given: what it writes for a log read from standard input.

use crate::index::{build, Entry, Index};
use crate::listing::state_line;
use crate::numbers::*;

/// Enough for the index of any chunk.
const INDEX_ROOM: usize = 25_542;

/// What the program writes.
#[derive(Clone, Debug, Default, PartialEq, Eq)]
pub struct Written {
    /// Standard output.
    pub lines: String,
    /// What stands in each line of standard error after the names of program and input.
    pub told: Vec<String>,
}

impl Written {
    /// Standard error, for an input of this name.
    pub fn errors(&self, name: &str) -> String {
        self.told.iter().map(|line| format!("evtx_index: {name}: {line}")).collect()
    }
}

/// The entries of each chunk's index, or the number that refuses it.
pub struct Indexes(Vec<Result<Vec<Entry>, u32>>);

impl Indexes {
    /// Bytes left over after the last full chunk are a chunk of a wrong length.
    pub fn of(file: &[u8]) -> Indexes {
        let chunks = file.get(FILE_HEADER_LENGTH..).unwrap_or_default().chunks(CHUNK_LENGTH);
        let entries = |index: Vec<u8>| Index::of(&index).expect("an index").entries().to_vec();
        Indexes(chunks.map(|chunk| build(chunk, INDEX_ROOM).map(entries)).collect())
    }

    /// All entries, whichever chunk they are of.
    pub fn entries(&self) -> impl Iterator<Item = &Entry> {
        self.0.iter().flatten().flatten()
    }

    /// All lines; or those of the entries with a number, given as a word of decimal digits.
    pub fn written(&self, number: Option<&str>) -> Written {
        let mut written = Written::default();
        for (chunk, index) in self.0.iter().enumerate() {
            let refusal = index.as_ref().err().copied().unwrap_or(DONE);
            let state = state_line(&format!("index {chunk}"), refusal);
            match number {
                None => written.lines += &state,
                Some(_) if refusal != DONE => written.told.push(state),
                Some(_) => (),
            }
            for entry in index.iter().flatten() {
                if number.is_none_or(|word| says(word, entry.record_number)) {
                    written.lines += &entry_line(chunk, entry);
                }
            }
        }
        written
    }
}

/// Whether a word of digits says a number, compared as words: so it may have any length.
fn says(word: &str, number: u64) -> bool {
    word.trim_start_matches('0') == number.to_string().trim_start_matches('0')
}

fn entry_line(chunk: usize, entry: &Entry) -> String {
    let Entry { offset, size, record_number, refusal } = entry;
    format!("{chunk} {offset} {size} {record_number} {refusal}\n")
}

/// What the program writes for a file, with or without a number.
pub fn indexing(file: &[u8], number: Option<&str>) -> Written {
    Indexes::of(file).written(number)
}
