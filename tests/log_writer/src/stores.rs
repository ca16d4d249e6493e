//! Stores of streams, set by hand.

use crate::{put, STORE};

/// What stands in a store before the bytes that it holds.
pub const STORE_HEADER: usize = 16;

/// A store of which `total` bytes were taken, and that holds the last of them
/// from so many bytes after its header on. Its other bytes are zeros.
pub fn store_with(total: u64, from: usize, held: &[u8]) -> Vec<u8> {
    let mut store = vec![0; STORE];
    put(&mut store, 0, &total.to_le_bytes());
    put(&mut store, 8, &(from as u16).to_le_bytes());
    put(&mut store, 10, &(held.len() as u16).to_le_bytes());
    put(&mut store, STORE_HEADER + from, held);
    store
}

/// The same stream, closed.
pub fn closed(mut store: Vec<u8>) -> Vec<u8> {
    store[12] = 1;
    store
}
