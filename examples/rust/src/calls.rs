//! The C interface as include/evtx.h declares it.

#[repr(C)]
pub struct Answer {
    pub number: u32,
    pub length: u64,
}

#[repr(C)]
pub struct Found {
    pub number: u32,
    pub offset: u64,
}

#[repr(C)]
pub struct Stretch {
    pub number: u32,
    pub offset: u64,
    pub length: u64,
}

#[repr(C)]
pub struct Fields {
    pub number: u32,
    pub record_number: u64,
    pub written_time: u64,
}

#[link(name = "evtx_c", kind = "static")]
extern "C" {
    pub fn evtx_check_file_header(header: *const u8, header_len: usize) -> Answer;
    pub fn evtx_check_chunk(chunk: *const u8, chunk_len: usize) -> Answer;
    pub fn evtx_search_chunk(
        chunk: *const u8,
        chunk_len: usize,
        offsets: *mut u32,
        room: usize,
    ) -> Answer;
    pub fn evtx_search_bytes(
        bytes: *const u8,
        bytes_len: usize,
        offsets: *mut u32,
        room: usize,
    ) -> Answer;
    pub fn evtx_free_space_offset(chunk: *const u8, chunk_len: usize) -> Found;
    pub fn evtx_size_in_chunk(chunk: *const u8, chunk_len: usize, offset: u64) -> Answer;
    pub fn evtx_size_in_bytes(bytes: *const u8, bytes_len: usize, offset: u64) -> Answer;
    pub fn evtx_next_in_chunk(chunk: *const u8, chunk_len: usize, from: u64) -> Found;
    pub fn evtx_next_in_bytes(bytes: *const u8, bytes_len: usize, from: u64) -> Found;
    pub fn evtx_record_stretch(chunk: *const u8, chunk_len: usize, offset: u64) -> Stretch;
    pub fn evtx_record_fields(chunk: *const u8, chunk_len: usize, offset: u64) -> Fields;
    pub fn evtx_record_text(
        chunk: *const u8,
        chunk_len: usize,
        offset: u64,
        out: *mut u8,
        room: usize,
    ) -> Answer;
    pub fn evtx_text_length(chunk: *const u8, chunk_len: usize, offset: u64) -> Answer;
}
