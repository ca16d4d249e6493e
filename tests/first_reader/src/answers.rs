//! What the calls answer. Each answer can also be made of what the second
//! reader gives, to be compared.

use second_reader::{evt, index, record};

/// What a check, a search, a packet, the end of a stream, a call that writes an
/// index or the header of an EVT log, or one for a record's size answers.
#[repr(C)]
#[derive(Clone, Copy, Debug, PartialEq, Eq)]
pub struct Answer {
    pub number: u32,
    pub length: u64,
}

/// What a call for the next record or for the free-space offset answers.
#[repr(C)]
#[derive(Clone, Copy, Debug, PartialEq, Eq)]
pub struct Found {
    pub number: u32,
    pub offset: u64,
}

/// What a call for a record's stretch answers.
#[repr(C)]
#[derive(Clone, Copy, Debug, PartialEq, Eq)]
pub struct Stretch {
    pub number: u32,
    pub offset: u64,
    pub length: u64,
}

/// What a call for a record's fields answers.
#[repr(C)]
#[derive(Clone, Copy, Debug, PartialEq, Eq)]
pub struct Fields {
    pub number: u32,
    pub record_number: u64,
    pub written_time: u64,
}

/// What a call for a record's text, also in an EVT log, or for its length answers.
#[repr(C)]
#[derive(Clone, Copy, Debug, PartialEq, Eq)]
pub struct Text {
    pub number: u32,
    pub length: u64,
}

/// What a call for an entry of an index answers.
#[repr(C)]
#[derive(Clone, Copy, Debug, PartialEq, Eq)]
pub struct Entry {
    pub number: u32,
    pub position: u64,
    pub chunk_number: u64,
    pub offset: u64,
    pub size: u64,
    pub record_number: u64,
    pub refusal: u32,
}

/// What a call for what stands at an offset of an EVT log answers.
#[repr(C)]
#[derive(Clone, Copy, Debug, PartialEq, Eq)]
pub struct Seen {
    pub number: u32,
    pub length: u64,
    pub record_number: u64,
    pub written_time: u64,
    pub next: u64,
}

impl Answer {
    /// Of a check.
    pub fn without_length(number: u32) -> Answer {
        Answer { number, length: 0 }
    }
}

impl From<Result<u64, u32>> for Answer {
    fn from(size: Result<u64, u32>) -> Answer {
        match size {
            Ok(length) => Answer { number: 0, length },
            Err(number) => Answer { number, length: 0 },
        }
    }
}

impl From<Result<u64, u32>> for Text {
    fn from(length: Result<u64, u32>) -> Text {
        match length {
            Ok(length) => Text { number: 0, length },
            Err(number) => Text { number, length: 0 },
        }
    }
}

impl From<Result<u64, u32>> for Found {
    fn from(next: Result<u64, u32>) -> Found {
        match next {
            Ok(offset) => Found { number: 0, offset },
            Err(number) => Found { number, offset: 0 },
        }
    }
}

impl From<Result<record::Stretch, u32>> for Stretch {
    fn from(stretch: Result<record::Stretch, u32>) -> Stretch {
        match stretch {
            Ok(record::Stretch { offset, length }) => Stretch { number: 0, offset, length },
            Err(number) => Stretch { number, offset: 0, length: 0 },
        }
    }
}

impl From<Result<record::Fields, u32>> for Fields {
    fn from(fields: Result<record::Fields, u32>) -> Fields {
        match fields {
            Ok(record::Fields { record_number, written_time }) => {
                Fields { number: 0, record_number, written_time }
            }
            Err(number) => Fields { number, record_number: 0, written_time: 0 },
        }
    }
}

impl From<Result<index::Placed, u32>> for Entry {
    fn from(placed: Result<index::Placed, u32>) -> Entry {
        let (number, position, entry) = match placed {
            Ok(index::Placed { position, entry }) => (0, position, entry),
            Err(number) => {
                (number, 0, index::Entry { offset: 0, size: 0, record_number: 0, refusal: 0 })
            }
        };
        let index::Entry { offset, size, record_number, refusal } = entry;
        Entry { number, position, chunk_number: 0, offset, size, record_number, refusal }
    }
}

impl From<Result<evt::At, u32>> for Seen {
    fn from(at: Result<evt::At, u32>) -> Seen {
        match at {
            Ok(evt::At { length, number: record_number, written_time, next }) => {
                Seen { number: 0, length, record_number, written_time, next }
            }
            Err(number) => Seen { number, length: 0, record_number: 0, written_time: 0, next: 0 },
        }
    }
}
