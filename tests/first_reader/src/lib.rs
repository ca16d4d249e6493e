//! The first reader, through its C interface: the calls, on memory that tests
//! lend them.

pub mod answers;
pub mod calls;

use answers::{Answer, Entry, Fields, Found, Seen, Stretch, Text};
use calls::*;
use support::lent::Lent;

/// Memory that a call can be lent.
///
/// # Safety
///
/// From `pointer` on there is memory of `length` entries, which lives at least
/// as long as the value and which nothing else refers to while a call runs.
pub unsafe trait Lendable<T> {
    fn pointer(&mut self) -> *mut T;
    fn length(&self) -> usize;
}

// Safety: the lent part is a part of the value's own vector.
unsafe impl<T: Copy + PartialEq> Lendable<T> for Lent<T> {
    fn pointer(&mut self) -> *mut T {
        Lent::pointer(self)
    }

    fn length(&self) -> usize {
        Lent::length(self)
    }
}

// Safety: the entries are the vector's own.
unsafe impl<T> Lendable<T> for Vec<T> {
    fn pointer(&mut self) -> *mut T {
        self.as_mut_ptr()
    }

    fn length(&self) -> usize {
        self.len()
    }
}

// Safety of every call below: pointer and length are those of lendable memory,
// and no two parameters are the same memory, since each is a reference to it
// that no other one can be beside.

pub fn check_file_header(header: &mut impl Lendable<u8>) -> Answer {
    unsafe { evtx_check_file_header(header.pointer(), header.length()) }
}

pub fn check_chunk(chunk: &mut impl Lendable<u8>) -> Answer {
    unsafe { evtx_check_chunk(chunk.pointer(), chunk.length()) }
}

pub fn search_chunk(chunk: &mut impl Lendable<u8>, list: &mut impl Lendable<u32>) -> Answer {
    unsafe { evtx_search_chunk(chunk.pointer(), chunk.length(), list.pointer(), list.length()) }
}

pub fn search_bytes(bytes: &mut impl Lendable<u8>, list: &mut impl Lendable<u32>) -> Answer {
    unsafe { evtx_search_bytes(bytes.pointer(), bytes.length(), list.pointer(), list.length()) }
}

pub fn feed(
    packet: &mut impl Lendable<u8>,
    store: &mut impl Lendable<u8>,
    list: &mut impl Lendable<u64>,
) -> Answer {
    unsafe {
        evtx_feed(
            packet.pointer(),
            packet.length(),
            store.pointer(),
            store.length(),
            list.pointer(),
            list.length(),
        )
    }
}

pub fn close(store: &mut impl Lendable<u8>, list: &mut impl Lendable<u64>) -> Answer {
    unsafe { evtx_close(store.pointer(), store.length(), list.pointer(), list.length()) }
}

pub fn next_in_chunk(chunk: &mut impl Lendable<u8>, from: u64) -> Found {
    unsafe { evtx_next_in_chunk(chunk.pointer(), chunk.length(), from) }
}

pub fn next_in_bytes(bytes: &mut impl Lendable<u8>, from: u64) -> Found {
    unsafe { evtx_next_in_bytes(bytes.pointer(), bytes.length(), from) }
}

pub fn record_stretch(chunk: &mut impl Lendable<u8>, offset: u64) -> Stretch {
    unsafe { evtx_record_stretch(chunk.pointer(), chunk.length(), offset) }
}

pub fn record_fields(chunk: &mut impl Lendable<u8>, offset: u64) -> Fields {
    unsafe { evtx_record_fields(chunk.pointer(), chunk.length(), offset) }
}

pub fn record_text(
    chunk: &mut impl Lendable<u8>,
    offset: u64,
    out: &mut impl Lendable<u8>,
) -> Text {
    unsafe {
        evtx_record_text(chunk.pointer(), chunk.length(), offset, out.pointer(), out.length())
    }
}

pub fn text_length(chunk: &mut impl Lendable<u8>, offset: u64) -> Text {
    unsafe { evtx_text_length(chunk.pointer(), chunk.length(), offset) }
}

pub fn size_in_chunk(chunk: &mut impl Lendable<u8>, offset: u64) -> Answer {
    unsafe { evtx_size_in_chunk(chunk.pointer(), chunk.length(), offset) }
}

pub fn size_in_bytes(bytes: &mut impl Lendable<u8>, offset: u64) -> Answer {
    unsafe { evtx_size_in_bytes(bytes.pointer(), bytes.length(), offset) }
}

pub fn free_space_offset(chunk: &mut impl Lendable<u8>) -> Found {
    unsafe { evtx_free_space_offset(chunk.pointer(), chunk.length()) }
}

pub fn index_build(chunk: &mut impl Lendable<u8>, out: &mut impl Lendable<u8>) -> Answer {
    unsafe { evtx_index_build(chunk.pointer(), chunk.length(), out.pointer(), out.length()) }
}

pub fn index_entry(index: &mut impl Lendable<u8>, position: u64) -> Entry {
    unsafe { evtx_index_entry(index.pointer(), index.length(), position) }
}

pub fn index_find(index: &mut impl Lendable<u8>, record_number: u64) -> Entry {
    unsafe { evtx_index_find(index.pointer(), index.length(), record_number) }
}

pub fn index_add(
    chunk: &mut impl Lendable<u8>,
    index: &mut impl Lendable<u8>,
    out: &mut impl Lendable<u8>,
) -> Answer {
    unsafe {
        evtx_index_add(
            chunk.pointer(),
            chunk.length(),
            index.pointer(),
            index.length(),
            out.pointer(),
            out.length(),
        )
    }
}

pub fn evt_header(file: &mut impl Lendable<u8>, out: &mut impl Lendable<u8>) -> Answer {
    unsafe { evtx_evt_header(file.pointer(), file.length(), out.pointer(), out.length()) }
}

pub fn evt_record(file: &mut impl Lendable<u8>, offset: u64) -> Seen {
    unsafe { evtx_evt_record(file.pointer(), file.length(), offset) }
}

pub fn evt_text(file: &mut impl Lendable<u8>, offset: u64, out: &mut impl Lendable<u8>) -> Text {
    unsafe { evtx_evt_text(file.pointer(), file.length(), offset, out.pointer(), out.length()) }
}
