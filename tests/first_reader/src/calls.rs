//! The C interface as include/evtx.h declares it.

use crate::answers::{Answer, Entry, Fields, Found, Seen, Stretch, Text};

// Not bundled: the archive is asked for where a program is linked that makes
// calls, and nothing else needs it.
#[link(name = "evtx_c", kind = "static", modifiers = "-bundle")]
extern "C" {
    pub fn evtx_check_file_header(header: *const u8, length: usize) -> Answer;
    pub fn evtx_check_chunk(chunk: *const u8, length: usize) -> Answer;
    pub fn evtx_search_chunk(
        chunk: *const u8,
        length: usize,
        offsets: *mut u32,
        room: usize,
    ) -> Answer;
    pub fn evtx_search_bytes(
        bytes: *const u8,
        length: usize,
        offsets: *mut u32,
        room: usize,
    ) -> Answer;
    pub fn evtx_feed(
        packet: *const u8,
        length: usize,
        store: *mut u8,
        store_length: usize,
        list: *mut u64,
        list_length: usize,
    ) -> Answer;
    pub fn evtx_close(
        store: *mut u8,
        store_length: usize,
        list: *mut u64,
        list_length: usize,
    ) -> Answer;
    pub fn evtx_next_in_chunk(chunk: *const u8, length: usize, from: u64) -> Found;
    pub fn evtx_next_in_bytes(bytes: *const u8, length: usize, from: u64) -> Found;
    pub fn evtx_record_stretch(chunk: *const u8, length: usize, offset: u64) -> Stretch;
    pub fn evtx_record_fields(chunk: *const u8, length: usize, offset: u64) -> Fields;
    pub fn evtx_record_text(
        chunk: *const u8,
        length: usize,
        offset: u64,
        out: *mut u8,
        room: usize,
    ) -> Text;
    pub fn evtx_text_length(chunk: *const u8, length: usize, offset: u64) -> Text;
    pub fn evtx_size_in_chunk(chunk: *const u8, length: usize, offset: u64) -> Answer;
    pub fn evtx_size_in_bytes(bytes: *const u8, length: usize, offset: u64) -> Answer;
    pub fn evtx_free_space_offset(chunk: *const u8, length: usize) -> Found;
    pub fn evtx_index_build(chunk: *const u8, length: usize, out: *mut u8, room: usize) -> Answer;
    pub fn evtx_index_entry(index: *const u8, length: usize, position: u64) -> Entry;
    pub fn evtx_index_find(index: *const u8, length: usize, record_number: u64) -> Entry;
    pub fn evtx_index_add(
        chunk: *const u8,
        length: usize,
        index: *const u8,
        index_length: usize,
        out: *mut u8,
        room: usize,
    ) -> Answer;
    pub fn evtx_evt_header(file: *const u8, length: usize, out: *mut u8, room: usize) -> Answer;
    pub fn evtx_evt_record(file: *const u8, length: usize, offset: u64) -> Seen;
    pub fn evtx_evt_text(
        file: *const u8,
        length: usize,
        offset: u64,
        out: *mut u8,
        room: usize,
    ) -> Text;
}
