//! Whole logs to list and to index: with lines worked out by hand, the samples with
//! the lines beside them, generated ones, and damaged ones.

mod by_hand;
pub mod generated;

use support::samples::{read_sample, SAMPLES};

pub struct File {
    pub name: String,
    pub seed: u64,
    pub bytes: Vec<u8>,
    /// The listing by hand, or that which stands beside a sample.
    pub expected: Option<Vec<u8>>,
    /// The lines of its indexes, likewise.
    pub indexes: Option<Vec<u8>>,
    pub input: Input,
}

/// How a file reaches the program's standard input.
#[derive(Clone, Copy, Debug, PartialEq, Eq)]
pub enum Input {
    /// Through a pipe, in pieces of this length.
    Pieces(usize),
    /// As a file of the samples folder.
    Sample(&'static str),
}

impl File {
    pub fn new(name: &str, bytes: Vec<u8>) -> File {
        File {
            name: name.to_string(),
            seed: 0,
            bytes,
            expected: None,
            indexes: None,
            input: Input::Pieces(1 << 16),
        }
    }

    fn with(self, lines: impl Into<Vec<u8>>) -> File {
        File { expected: Some(lines.into()), ..self }
    }

    fn indexed(self, lines: impl Into<Vec<u8>>) -> File {
        File { indexes: Some(lines.into()), ..self }
    }
}

fn samples() -> Vec<File> {
    let mut files = Vec::new();
    for name in SAMPLES {
        // Pieces that end in headers, in records, and in a chunk's last byte.
        let pieces = [1 << 20, 4_096, 1_000, 4_096 + 65_535].map(Input::Pieces);
        for input in pieces.into_iter().chain([Input::Sample(name)]) {
            let log = read_sample(&format!("{name}.evtx"));
            let lines = read_sample(&format!("{name}.listing"));
            let indexes = read_sample(&format!("{name}.index"));
            files.push(File { input, ..File::new(name, log).with(lines).indexed(indexes) });
        }
    }
    files
}

/// Hands every file to `list` until it answers an error.
pub fn for_each<E>(list: &mut dyn FnMut(&File) -> Result<(), E>) -> Result<(), (File, E)> {
    for file in by_hand::all().into_iter().chain(samples()) {
        list(&file).map_err(|error| (file, error))?;
    }
    generated::for_each(generated::SEED, list)
}

#[cfg(test)]
mod tests {
    use super::by_hand;
    use crate::hand;
    use second_reader::indexing::indexing;
    use second_reader::listing::listing;
    use std::ops::RangeInclusive;

    /// The questions of docs/DECISIONS.md on answers, order, stretches and text, and
    /// those on closing zeros.
    const QUESTIONS: [RangeInclusive<u32>; 2] = [1..=28, 83..=85];

    #[test]
    fn every_question_has_a_case() {
        let texts = hand::all().map(|question| question.name);
        let files = by_hand::all().into_iter().map(|file| file.name);
        let names: Vec<String> = texts.chain(files).collect();
        for number in QUESTIONS.into_iter().flatten() {
            let prefix = format!("{number}: ");
            assert!(names.iter().any(|name| name.starts_with(&prefix)), "question {number}");
        }
    }

    #[test]
    fn the_second_reader_lists_as_expected() {
        for file in by_hand::all() {
            assert!(Some(listing(&file.bytes)) == file.expected, "{}", file.name);
        }
    }

    #[test]
    fn the_second_reader_indexes_as_expected() {
        for file in by_hand::all() {
            let lines = indexing(&file.bytes, None).lines.into_bytes();
            assert!(Some(lines) == file.indexes, "{}", file.name);
        }
    }
}
