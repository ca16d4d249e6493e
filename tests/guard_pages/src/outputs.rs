//! What a call writes, with the output at both edges of pages that may not be touched.

use crate::fenced::{Fenced, EDGES};
use second_reader::numbers::{within_room, DONE};
use std::collections::BTreeSet;
use support::difference::Due;

/// Bytes of an output where nothing is written.
const KEPT: u8 = 0xf9;

/// Rooms that are none, odd, and around the length that is due.
fn rooms(due: &Due) -> BTreeSet<usize> {
    let length = due.as_ref().map_or(0, Vec::len);
    BTreeSet::from([0, length.saturating_sub(1), length, length + 1, length + 77])
}

/// The call with each room, and the output at both edges. It answers number and length.
pub fn writes(due: &Due, call: &mut dyn FnMut(&mut Fenced) -> (u32, u64)) {
    let each = rooms(due).into_iter().flat_map(|room| EDGES.map(|edge| (room, edge)));
    for (room, edge) in each {
        let (number, written) = match due.clone().and_then(|bytes| within_room(bytes, room)) {
            Ok(bytes) => (DONE, bytes),
            Err(number) => (number, Vec::new()),
        };
        let mut out = Fenced::new(&vec![KEPT; room], edge);
        assert_eq!(call(&mut out), (number, written.len() as u64));
        assert!(out.holds(&written, KEPT));
    }
}
