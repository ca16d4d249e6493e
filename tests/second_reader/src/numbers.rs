//! The numbers a call may answer, what a refused text carries, the sizes that
//! all calls share, little-endian fields, and the room for what is written.

pub const DONE: u32 = 0;
pub const WRONG_LENGTH: u32 = 1;
pub const WRONG_MAGIC: u32 = 2;
pub const WRONG_VERSION: u32 = 3;
pub const WRONG_FIELD: u32 = 4;
pub const WRONG_HEADER_CHECKSUM: u32 = 5;
pub const WRONG_DATA_CHECKSUM: u32 = 6;
pub const NO_RECORD: u32 = 7;
pub const MALFORMED: u32 = 8;
pub const LEAVES_CHUNK: u32 = 9;
pub const NO_SUCH_VALUE: u32 = 10;
pub const WRONG_VALUE: u32 = 11;
pub const OVER_LIMIT: u32 = 12;
pub const NO_ROOM: u32 = 13;
pub const AFTER_CLOSING: u32 = 14;
pub const NUMBER_TOO_LARGE: u32 = 15;
pub const NOT_AN_INDEX: u32 = 16;
pub const NOT_ONE_TRAILER: u32 = 17;
pub const NO_EVT_RECORD: u32 = 18;

pub const FILE_HEADER_LENGTH: usize = 4_096;
pub const CHUNK_LENGTH: usize = 65_536;
/// The end of a chunk's header; records and pointed-to things begin here or later.
pub const CHUNK_DATA_START: usize = 512;

/// A refused text: its number and its place. The place is a chunk offset for
/// 8 to 12 and 0 for 1, 7 and 13.
#[derive(Clone, Copy, Debug, PartialEq, Eq)]
pub struct Refusal {
    pub number: u32,
    pub place: u64,
}

impl Refusal {
    pub fn without_place(number: u32) -> Refusal {
        Refusal { number, place: 0 }
    }

    pub fn at(number: u32, place: usize) -> Refusal {
        Refusal { number, place: place as u64 }
    }
}

/// The bytes as one little-endian number; at most 8 of them.
pub fn little_endian(bytes: &[u8]) -> u64 {
    bytes.iter().rev().fold(0, |number, &byte| number << 8 | u64::from(byte))
}

/// The field of `length` bytes at `at` as a little-endian number.
pub fn field(bytes: &[u8], at: usize, length: usize) -> u64 {
    little_endian(&bytes[at..at + length])
}

/// What is to be written; refuses 13.
pub fn within_room(bytes: Vec<u8>, room: usize) -> Result<Vec<u8>, u32> {
    if bytes.len() > room {
        return Err(NO_ROOM);
    }
    Ok(bytes)
}
