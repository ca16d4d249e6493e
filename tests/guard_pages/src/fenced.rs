//! Lent memory that ends where a page begins that may not be touched, or begins
//! where such a page ends.

use first_reader::Lendable;
use std::ffi::{c_int, c_void};
use std::mem::size_of;
use std::ptr::null_mut;

const PAGE: usize = 4_096;
const UNLENT: u8 = 0xa5;
const PROT_NONE: c_int = 0;
const PROT_READ: c_int = 1;
const PROT_WRITE: c_int = 2;
const MAP_PRIVATE: c_int = 2;
const MAP_ANONYMOUS: c_int = 0x20;

extern "C" {
    fn mmap(
        at: *mut c_void,
        length: usize,
        protection: c_int,
        flags: c_int,
        file: c_int,
        offset: i64,
    ) -> *mut c_void;
    fn mprotect(at: *mut c_void, length: usize, protection: c_int) -> c_int;
    fn munmap(at: *mut c_void, length: usize) -> c_int;
}

/// Which end of the lent memory stands at a page that may not be touched.
#[derive(Clone, Copy, Debug, PartialEq, Eq)]
pub enum Edge {
    Front,
    Back,
}

pub const EDGES: [Edge; 2] = [Edge::Front, Edge::Back];

/// A page that may not be touched, pages that hold the lent bytes, and another
/// that may not be touched. What is not lent of the pages holds one byte.
pub struct Fenced {
    base: *mut u8,
    inner: usize,
    start: usize,
    length: usize,
}

impl Fenced {
    pub fn new(bytes: &[u8], edge: Edge) -> Fenced {
        let length = bytes.len();
        let inner = PAGE * length.div_ceil(PAGE).max(1);
        let flags = MAP_PRIVATE | MAP_ANONYMOUS;
        // Safety: new memory that nothing else refers to.
        let base = unsafe { mmap(null_mut(), inner + 2 * PAGE, PROT_NONE, flags, -1, 0) };
        assert!(base as isize != -1, "no memory");
        let start = match edge {
            Edge::Front => 0,
            Edge::Back => inner - length,
        };
        let fenced = Fenced { base: base.cast(), inner, start, length };
        fenced.protect(PROT_READ | PROT_WRITE);
        // Safety: the inner pages are this value's own, and may be written now.
        unsafe {
            fenced.pages().write_bytes(UNLENT, inner);
            fenced.pointer().copy_from_nonoverlapping(bytes.as_ptr(), length);
        }
        fenced
    }

    /// The same for bytes that a call may only read.
    pub fn input(bytes: &[u8], edge: Edge) -> Fenced {
        let fenced = Fenced::new(bytes, edge);
        fenced.protect(PROT_READ);
        fenced
    }

    fn pages(&self) -> *mut u8 {
        self.base.wrapping_add(PAGE)
    }

    fn protect(&self, protection: c_int) {
        // Safety: the inner pages are mapped and this value's own.
        let done = unsafe { mprotect(self.pages().cast(), self.inner, protection) };
        assert_eq!(done, 0, "mprotect");
    }

    /// Where the lent bytes begin. Without any it may be a byte that may not be
    /// touched.
    pub fn pointer(&self) -> *mut u8 {
        self.pages().wrapping_add(self.start)
    }

    /// All that may be touched, as it is now.
    fn touchable(&self) -> &[u8] {
        // Safety: the inner pages are mapped, readable, and no call is at work.
        unsafe { std::slice::from_raw_parts(self.pages(), self.inner) }
    }

    /// The lent bytes as they are now.
    pub fn now(&self) -> &[u8] {
        &self.touchable()[self.start..self.start + self.length]
    }

    /// The lent bytes are `front`, and behind it all `kept`; what is not lent is as
    /// it was.
    pub fn holds(&self, front: &[u8], kept: u8) -> bool {
        let (written, rest) = self.now().split_at(front.len());
        written == front && rest.iter().all(|byte| *byte == kept) && self.rest_kept()
    }

    /// What is not lent is as it was.
    pub fn rest_kept(&self) -> bool {
        let (front, back) = (&self.touchable()[..self.start], &self.touchable()[self.start..]);
        front.iter().chain(&back[self.length..]).all(|byte| *byte == UNLENT)
    }
}

// Safety: the lent bytes are mapped until the value is dropped, and are its own.
unsafe impl Lendable<u8> for Fenced {
    fn pointer(&mut self) -> *mut u8 {
        Fenced::pointer(self)
    }

    fn length(&self) -> usize {
        self.length
    }
}

/// A list, of as many bytes for each entry as its type has.
macro_rules! list_of {
    ($($entry:ty),*) => {
        // Safety: as for bytes, and they begin where an entry may.
        $(unsafe impl Lendable<$entry> for Fenced {
            fn pointer(&mut self) -> *mut $entry {
                let list: *mut $entry = Fenced::pointer(self).cast();
                assert!(list.is_aligned(), "the length of a list is a multiple of an entry's");
                list
            }

            fn length(&self) -> usize {
                self.length / size_of::<$entry>()
            }
        })*
    };
}

list_of!(u32, u64);

impl Drop for Fenced {
    fn drop(&mut self) {
        // Safety: mapped by `new` with this length, and unmapped once.
        unsafe { munmap(self.base.cast(), self.inner + 2 * PAGE) };
    }
}

#[cfg(test)]
mod tests {
    use super::*;

    extern "C" {
        fn pipe(ends: *mut c_int) -> c_int;
        fn write(file: c_int, from: *const u8, length: usize) -> isize;
    }

    /// Whether a byte may be read: the system refuses to write one to a pipe
    /// from where it may not.
    fn readable(at: *const u8) -> bool {
        let mut ends = [0; 2];
        // Safety: the pipe's ends are written to an array of two; `write` reads nothing that it may not.
        unsafe {
            assert_eq!(pipe(ends.as_mut_ptr()), 0);
            write(ends[1], at, 1) == 1
        }
    }

    #[test]
    fn the_edges_may_not_be_touched() {
        for length in [1, 7, 4_095, 4_096, 4_097] {
            let front = Fenced::new(&vec![1; length], Edge::Front);
            assert!(readable(front.pointer()) && !readable(front.pointer().wrapping_sub(1)));
            let back = Fenced::new(&vec![1; length], Edge::Back);
            let end = back.pointer().wrapping_add(length);
            assert!(readable(end.wrapping_sub(1)) && !readable(end));
            assert!(front.rest_kept() && back.rest_kept());
        }
        let none = Fenced::new(&[], Edge::Back);
        assert!(!readable(none.pointer()));
    }
}
