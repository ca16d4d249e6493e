//! A safe wrapper of the library's calls: slices in, an enum out.
//!
//! Each call below is safe for the same reason: evtx.h asks for pointers that
//! are not null, for as many bytes as the length says, and for buffers that do
//! not overlap; the slices of Rust have all three, and no call keeps a pointer.

mod calls;
mod refusal;

use refusal::outcome;
pub use refusal::Refusal;

/// How many bytes a file header has, and a chunk.
pub const FILE_HEADER_SIZE: usize = 4_096;
pub const CHUNK_SIZE: usize = 65_536;

/// The room that a search of a chunk never finds too small.
pub const MOST_RECORDS_OF_CHUNK: usize = 2_322;

/// A record's number, and its written time in 100 ns from 1601.
#[derive(Clone, Copy, Debug, PartialEq, Eq)]
pub struct Fields {
    pub record_number: u64,
    pub written_time: u64,
}

pub fn check_file_header(header: &[u8]) -> Result<(), Refusal> {
    let answer = unsafe { calls::evtx_check_file_header(header.as_ptr(), header.len()) };
    outcome(answer.number, ())
}

pub fn check_chunk(chunk: &[u8]) -> Result<(), Refusal> {
    let answer = unsafe { calls::evtx_check_chunk(chunk.as_ptr(), chunk.len()) };
    outcome(answer.number, ())
}

/// Where the free space of a chunk begins, as the chunk says. It means something
/// where `check_chunk` finds nothing.
pub fn free_space_offset(chunk: &[u8]) -> Result<u64, Refusal> {
    let found = unsafe { calls::evtx_free_space_offset(chunk.as_ptr(), chunk.len()) };
    outcome(found.number, found.offset)
}

/// The offsets of the whole records of a chunk, at the front of the list lent.
pub fn search_chunk<'a>(chunk: &[u8], list: &'a mut [u32]) -> Result<&'a [u32], Refusal> {
    let answer = unsafe {
        calls::evtx_search_chunk(chunk.as_ptr(), chunk.len(), list.as_mut_ptr(), list.len())
    };
    outcome(answer.number, &list[..answer.length as usize])
}

/// The same for up to 16 MiB of bytes of any origin.
pub fn search_bytes<'a>(bytes: &[u8], list: &'a mut [u32]) -> Result<&'a [u32], Refusal> {
    let answer = unsafe {
        calls::evtx_search_bytes(bytes.as_ptr(), bytes.len(), list.as_mut_ptr(), list.len())
    };
    outcome(answer.number, &list[..answer.length as usize])
}

/// The lowest whole record of a chunk at or after an offset.
pub fn next_in_chunk(chunk: &[u8], from: u64) -> Result<u64, Refusal> {
    let found = unsafe { calls::evtx_next_in_chunk(chunk.as_ptr(), chunk.len(), from) };
    outcome(found.number, found.offset)
}

/// The same for up to 16 MiB of bytes of any origin.
pub fn next_in_bytes(bytes: &[u8], from: u64) -> Result<u64, Refusal> {
    let found = unsafe { calls::evtx_next_in_bytes(bytes.as_ptr(), bytes.len(), from) };
    outcome(found.number, found.offset)
}

/// The size of the whole record at an offset of a chunk.
pub fn size_in_chunk(chunk: &[u8], offset: u64) -> Result<u64, Refusal> {
    let answer = unsafe { calls::evtx_size_in_chunk(chunk.as_ptr(), chunk.len(), offset) };
    outcome(answer.number, answer.length)
}

/// The same for up to 16 MiB of bytes of any origin.
pub fn size_in_bytes(bytes: &[u8], offset: u64) -> Result<u64, Refusal> {
    let answer = unsafe { calls::evtx_size_in_bytes(bytes.as_ptr(), bytes.len(), offset) };
    outcome(answer.number, answer.length)
}

/// The binary XML of a record: a part of the chunk, not a copy.
pub fn record_stretch(chunk: &[u8], offset: u64) -> Result<&[u8], Refusal> {
    let stretch = unsafe { calls::evtx_record_stretch(chunk.as_ptr(), chunk.len(), offset) };
    let from = stretch.offset as usize;
    outcome(stretch.number, &chunk[from..from + stretch.length as usize])
}

pub fn record_fields(chunk: &[u8], offset: u64) -> Result<Fields, Refusal> {
    let calls::Fields {
        number,
        record_number,
        written_time,
    } = unsafe { calls::evtx_record_fields(chunk.as_ptr(), chunk.len(), offset) };
    outcome(
        number,
        Fields {
            record_number,
            written_time,
        },
    )
}

/// The text of a record, at the front of the memory lent. A refusal leaves that
/// memory as it was.
pub fn record_text<'a>(chunk: &[u8], offset: u64, out: &'a mut [u8]) -> Result<&'a str, Refusal> {
    let answer = unsafe {
        calls::evtx_record_text(
            chunk.as_ptr(),
            chunk.len(),
            offset,
            out.as_mut_ptr(),
            out.len(),
        )
    };
    let text = &out[..answer.length as usize];
    outcome(
        answer.number,
        std::str::from_utf8(text).expect("the text is UTF-8"),
    )
}

/// The length of the text of a record, whatever room there is for it.
pub fn text_length(chunk: &[u8], offset: u64) -> Result<u64, Refusal> {
    let answer = unsafe { calls::evtx_text_length(chunk.as_ptr(), chunk.len(), offset) };
    outcome(answer.number, answer.length)
}
