//! Depth of elements and fragments, and the number of values: each at its
//! limit and one past it.

use super::examples::first_with;
use super::flat;
use crate::question::Question;
use log_writer::*;

/// `depth` elements inside each other; `deepest` writes the innermost one.
fn deep(w: &mut Writer, depth: usize, deepest: &dyn Fn(&mut Writer)) {
    match depth {
        1 => deepest(w),
        _ => w.open("e", |w| deep(w, depth - 1, deepest)),
    }
}

fn empty(w: &mut Writer) {
    w.empty("e");
}

fn nested_text(depth: usize, innermost: &str) -> String {
    "<e>".repeat(depth) + innermost + &"</e>".repeat(depth)
}

fn element_depth() -> Vec<Question> {
    let in_fragment = |depth| one_record(|w| deep(w, depth, &empty));
    let in_definition = |depth| one_record(|w| w.instance(|w| deep(w, depth, &empty), &[]));
    // The 33rd element has a length that leaves what holds it.
    let wrong_length = one_record(|w| deep(w, 33, &|w| w.put(&[0x01, 0, 0, 0xff, 0xff, 0, 0])));
    vec![
        Question::text("elements 32 deep", in_fragment(32), nested_text(31, "<e/>")),
        Question::refused("elements 33 deep", in_fragment(33), 12),
        Question::text("elements 32 deep, defined", in_definition(32), nested_text(31, "<e/>")),
        Question::refused("elements 33 deep, defined", in_definition(33), 12),
        Question::refused("8: depth before the element's other fields", wrong_length, 12),
    ]
}

/// Fragments inside each other's one value, all instances of the definition at
/// 40,000: `each` elements around value 0. The innermost value is given.
fn fragments(depth: usize, each: usize, innermost: (u8, &[u8])) -> Vec<u8> {
    fn inner(w: &mut Writer, depth: usize, innermost: (u8, &[u8])) {
        match depth {
            1 => w.pointing(40_000, &[plain(innermost.0, innermost.1)]),
            _ => w.pointing(40_000, &[Value::Fragment(&|w| inner(w, depth - 1, innermost))]),
        }
    }
    let mut chunk = one_record(|w| inner(w, depth, innermost));
    place(&mut chunk, 40_000, |w| {
        w.bare_definition(|w| deep(w, each, &|w| w.open("e", |w| w.substitution(0x0d, 0))));
    });
    chunk
}

fn fragment_depth() -> Vec<Question> {
    let five: (u8, &[u8]) = (0x04, &[5]);
    let no_fragment = fragments(8, 1, (BIN_XML, &[]));
    let mut wrong_bytes = fragments(9, 1, five);
    // Each instance takes 22 bytes before its value: the ninth fragment's first byte.
    wrong_bytes[BODY + 8 * 22] = 0xff;
    vec![
        Question::text("fragments 8 deep", fragments(8, 1, five), nested_text(8, "5")),
        Question::refused("10: fragments 9 deep", fragments(9, 1, five), 12),
        Question::refused("fragments 9 deep, before the bytes", wrong_bytes, 12),
        Question::text("elements 32 deep over 8", fragments(8, 4, five), nested_text(32, "5")),
        Question::refused("elements 35 deep over 7", fragments(7, 5, five), 12),
        Question::text("9: BinXml of size 0, 8 deep", no_fragment, nested_text(8, "")),
        Question::refused("9: BinXml of size 1, 8 deep", fragments(8, 1, (BIN_XML, &[0])), 12),
    ]
}

/// 31 elements around a BinXml value with one element, or with two inside each
/// other; that fragment has no instance.
fn over_fragments() -> Vec<Question> {
    let with = |inner: usize| {
        one_record(|w| {
            let shown = |w: &mut Writer| w.open("e", |w| w.substitution(0x0d, 0));
            w.instance(|w| deep(w, 31, &shown), &[Value::Fragment(&|w| deep(w, inner, &empty))]);
        })
    };
    vec![
        Question::text("elements 31 and 1 deep", with(1), nested_text(31, "<e/>")),
        Question::refused("elements 31 and 2 deep", with(2), 12),
    ]
}

/// The depth falls again behind an element and behind a BinXml value.
fn side_by_side() -> Vec<Question> {
    let chunk = one_record(|w| {
        let element = |w: &mut Writer| {
            w.open("o", |w| {
                (0..40).for_each(|_| deep(w, 31, &empty));
                (0..40).for_each(|_| w.substitution(0x0d, 0));
            });
        };
        w.instance(element, &[Value::Fragment(&|w| deep(w, 31, &empty))]);
    });
    let text = "<o>".to_string() + &nested_text(30, "<e/>").repeat(80) + "</o>";
    vec![Question::text("80 times 31 deep, side by side", chunk, text)]
}

/// The count of the first example set to other numbers; its one value, of two
/// bytes, leaves no place for more descriptors.
fn value_counts() -> Vec<Question> {
    let count = |number: u32| first_with(&[(608, &number.to_le_bytes())]);
    vec![
        Question::refused("16: a count of 256 that does not fit", count(256), 8),
        Question::refused("16: a count of 257 that does not fit", count(257), 12),
        Question::refused("16: the greatest count", count(u32::MAX), 12),
        Question::refused("16: a count of 2 that does not fit", count(2), 8),
        Question::refused("16: a count of 0 and a substitution", count(0), 10),
    ]
}

pub fn all() -> Vec<Question> {
    flat([element_depth(), fragment_depth(), over_fragments(), side_by_side(), value_counts()])
}
