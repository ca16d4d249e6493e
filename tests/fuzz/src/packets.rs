//! The bytes of an input as a stream that is cut into packets, and as a store
//! that is fed one.

use crate::form::Head;
use compare::streams::{compare_store, Joined};
use log_writer::{put, STORE, STORE_HEADER};
use second_reader::numbers::field;
use std::iter::{once, repeat};
use support::difference::Outcome;
use support::tally::Tally;

/// How many bytes of a store say what it holds.
pub const STATED: usize = 13;
/// More packets than this would take too long.
const MOST_PACKETS: usize = 200;

pub fn stream(head: &Head, bytes: &[u8], tally: &mut Tally) -> Outcome {
    let first = usize::from(head.offset as u16);
    let width = head.room.max(bytes.len() / MOST_PACKETS).max(1);
    let lengths = once(first).chain(repeat(width));
    Joined::of(bytes).compare(lengths, head.room as u64, tally)
}

/// What the store holds begins where its first bytes say, and is cut where the
/// store ends.
pub fn store(head: &Head, bytes: &[u8], tally: &mut Tally) -> Outcome {
    let (stated, others) = bytes.split_at(bytes.len().min(STATED));
    let (held, packet) = others.split_at(others.len().min(usize::from(head.offset as u16)));
    let mut store = vec![0; STORE];
    put(&mut store, 0, stated);
    let from = (STORE_HEADER + field(&store, 8, 2) as usize).min(STORE);
    let fitting = held.len().min(STORE - from);
    put(&mut store, from, &held[..fitting]);
    compare_store(&store, packet, head.room as u64, tally)
}
