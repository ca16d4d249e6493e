//! The text of single values, on memory at the edge of a page that may not be
//! touched, with the answers of the second reader. The call stands in an archive
//! of its own, libvalue_c.a, and so this test in a crate of its own.

use compare_text::boundaries::{self, Value};
use guard_pages::fenced::{Edge, Fenced, EDGES};
use log_writer::u16s;
use second_reader::value::value_text;
use std::collections::BTreeSet;

/// What the memory for a text holds beforehand; it stands in no UTF-8.
const KEPT: u8 = 0xf9;
const WRONG_VALUE: u32 = 11;
const NO_ROOM: u32 = 13;
const PAGE: usize = 4_096;

/// What the call answers, as crates/value_c has it.
#[repr(C)]
#[derive(Debug, PartialEq, Eq)]
struct Answer {
    number: u32,
    length: u64,
}

#[link(name = "value_c", kind = "static", modifiers = "-bundle")]
extern "C" {
    fn evtx_put_value(kind: u8, src: *const u8, size: usize, out: *mut u8, room: usize) -> Answer;
}

/// One value with one room, the memory of both at the given edges.
fn ask(value: &Value, room: usize, edges: (Edge, Edge)) {
    let src = Fenced::input(&value.bytes, edges.0);
    let out = Fenced::new(&vec![KEPT; room], edges.1);
    // Safety: pointers and lengths are those of memory that the values above hold.
    let answer = unsafe {
        evtx_put_value(value.kind, src.pointer(), value.bytes.len(), out.pointer(), room)
    };
    let (number, text) = match value_text(value.kind, &value.bytes) {
        Ok(text) if text.len() <= room => (0, text),
        Ok(_) => (NO_ROOM, String::new()),
        Err(_) => (WRONG_VALUE, String::new()),
    };
    let asked = format!("type {:02x}, {} bytes, room {room}", value.kind, value.bytes.len());
    assert_eq!(answer, Answer { number, length: text.len() as u64 }, "{asked}");
    let (written, rest) = out.now().split_at(text.len());
    assert!(written == text.as_bytes() && rest.iter().all(|byte| *byte == KEPT), "{asked}");
    assert!(src.now() == value.bytes && src.rest_kept() && out.rest_kept(), "{asked}");
}

/// A value with rooms around the length of its text, at each pair of edges.
fn ask_all(value: &Value) {
    let length = value_text(value.kind, &value.bytes).map_or(0, |text| text.len());
    for room in BTreeSet::from([0, length.saturating_sub(1), length, length + 1]) {
        for edge in EDGES {
            EDGES.into_iter().for_each(|other| ask(value, room, (edge, other)));
        }
    }
}

#[test]
fn values_at_their_boundaries() {
    boundaries::all().iter().for_each(ask_all);
}

/// Zeros of every small size, odd ones too, and of sizes around a page's and the
/// largest: with the value at the front edge nothing before its first byte may be
/// read, wherever the search for its last unit ends.
#[test]
fn strings_of_zeros() {
    let around = |size: usize| [size - 2, size - 1, size, size + 1, size + 2];
    let pages = [around(PAGE), around(2 * PAGE), around(15 * PAGE)].concat();
    for size in (0..20).chain(pages).chain([65_533, 65_534, 65_535]) {
        ask_all(&Value::new(0x01, vec![0; size]));
    }
}

/// One unit that is not zero, first, last or next to an end.
#[test]
fn zeros_around_one_unit() {
    for units in [1, 2, 3, 2_047, 2_048, 2_049, 32_767] {
        for at in BTreeSet::from([0, 1, units - 1, units - units.min(2)]) {
            for unit in [0x41, 0x4100, 0xd800] {
                let mut all = vec![0; units];
                all[at.min(units - 1)] = unit;
                ask_all(&Value::new(0x01, u16s(&all)));
            }
        }
    }
}
