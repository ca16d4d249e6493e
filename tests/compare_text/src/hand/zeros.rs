//! Strings with zero units at their end, wherever a string can stand. A value from
//! a substitution drops them, a literal keeps them.

use super::examples::shown;
use super::flat;
use super::values::{named as renamed, wrong};
use crate::question::Question;
use log_writer::*;

/// The units, the text as a value, and the text as a literal.
const STRINGS: [(&[u16], &str, &str); 24] = [
    (&[], "", ""),
    (&[0], "", "\u{fffd}"),
    (&[0, 0], "", "\u{fffd}\u{fffd}"),
    (&[0x41, 0], "A", "A\u{fffd}"),
    (&[0x41, 0, 0], "A", "A\u{fffd}\u{fffd}"),
    (&[0, 0x41], "\u{fffd}A", "\u{fffd}A"),
    (&[0x41, 0, 0x42], "A\u{fffd}B", "A\u{fffd}B"),
    (&[0, 0x41, 0], "\u{fffd}A", "\u{fffd}A\u{fffd}"),
    (&[0x41, 0, 0x42, 0, 0], "A\u{fffd}B", "A\u{fffd}B\u{fffd}\u{fffd}"),
    // Units are dropped and not bytes: a zero in either half of a unit stays.
    (&[0x4100, 0], "\u{4100}", "\u{4100}\u{fffd}"),
    (&[0x41, 0x4100, 0], "A\u{4100}", "A\u{4100}\u{fffd}"),
    (&[0, 0x4100], "\u{fffd}\u{4100}", "\u{fffd}\u{4100}"),
    // Zeros go before surrogates are paired.
    (&[0xd800, 0], "\u{fffd}", "\u{fffd}\u{fffd}"),
    (&[0xdbff, 0, 0], "\u{fffd}", "\u{fffd}\u{fffd}\u{fffd}"),
    (&[0xd800, 0, 0xdc00], "\u{fffd}\u{fffd}\u{fffd}", "\u{fffd}\u{fffd}\u{fffd}"),
    (&[0xd83d, 0xde00, 0], "😀", "😀\u{fffd}"),
    (&[0x41, 0xdc00], "A\u{fffd}", "A\u{fffd}"),
    (&[0xdc00, 0], "\u{fffd}", "\u{fffd}\u{fffd}"),
    // Units that are no XML character but not zero end the tail.
    (&[0x41, 0, 1], "A\u{fffd}\u{fffd}", "A\u{fffd}\u{fffd}"),
    (&[1, 0], "\u{fffd}", "\u{fffd}\u{fffd}"),
    (&[0xffff, 0], "\u{fffd}", "\u{fffd}\u{fffd}"),
    (&[0xfffd, 0], "\u{fffd}", "\u{fffd}\u{fffd}"),
    (&[0x26, 0], "&amp;", "&amp;\u{fffd}"),
    (&[0x20, 0x0a, 0], " &#10;", " &#10;\u{fffd}"),
];

/// A record whose definition has the element that `element` writes. Value 0 is
/// the string, value 1 Null.
fn with_string(units: &[u16], element: impl FnOnce(&mut Writer)) -> Vec<u8> {
    one_record(|w| w.instance(element, &[plain(0x01, u16s(units)), plain(0x00, [])]))
}

fn with_attribute(units: &[u16], items: impl FnOnce(&mut Writer)) -> Vec<u8> {
    with_string(units, |w| w.with_attributes("P", |w| w.attribute("a", items)))
}

/// Named after the question that it is a case of: surrogates before zeros, nothing
/// but zeros, or which strings lose them.
fn named(units: &[u16], place: &str) -> String {
    let number = match units {
        [.., 0xd800..=0xdfff, 0] => 83,
        [] => 85,
        _ if units.iter().all(|unit| *unit == 0) => 84,
        _ => 85,
    };
    let front = &units[..units.len().min(6)];
    format!("{number}: closing zeros, {} units, {front:x?} and on, {place}", units.len())
}

/// The string as a value by a normal and by an optional substitution: in an
/// element, as an attribute's one item, and as one of two. It is no Null, so
/// that the attribute stays in any case.
fn values(units: &[u16], text: &str) -> Vec<Question> {
    let mut cases = Vec::new();
    let mut case = |place: &str, chunk: Vec<u8>, text: String| {
        cases.push(Question::text(named(units, place), chunk, text));
    };
    for token in [0x0d, 0x0e] {
        let both = |w: &mut Writer, second: &dyn Fn(&mut Writer)| {
            w.substitution(token, 0);
            second(w);
        };
        let literal_first = |w: &mut Writer| {
            w.literal("x");
            w.substitution(token, 0);
        };
        let element = with_string(units, |w| w.open("P", |w| w.substitution(token, 0)));
        case("element", element, format!("<P>{text}</P>"));
        let alone = with_attribute(units, |w| w.substitution(token, 0));
        case("attribute", alone, format!("<P a=\"{text}\"/>"));
        let first = with_attribute(units, |w| both(w, &|w| w.literal("x")));
        case("before a literal", first, format!("<P a=\"{text}x\"/>"));
        let second = with_attribute(units, literal_first);
        case("behind a literal", second, format!("<P a=\"x{text}\"/>"));
        let null = with_attribute(units, |w| both(w, &|w| w.substitution(0x0e, 1)));
        case("before a Null", null, format!("<P a=\"{text}\"/>"));
        let twice = with_attribute(units, |w| both(w, &|w| w.substitution(token, 0)));
        case("twice", twice, format!("<P a=\"{text}{text}\"/>"));
    }
    cases
}

/// The same units as a literal, alone and beside the value.
fn literals(units: &[u16], value: &str, text: &str) -> Vec<Question> {
    let literal = |w: &mut Writer, token: u8| {
        let at = w.bytes.len();
        w.units(units);
        w.bytes[at] = token;
    };
    let mut cases = Vec::new();
    let mut case = |place: &str, chunk: Vec<u8>, text: String| {
        cases.push(Question::text(named(units, place), chunk, text));
    };
    for token in [0x05, 0x45] {
        let element = one_record(|w| w.open("P", |w| literal(w, token)));
        case("literal", element, format!("<P>{text}</P>"));
        let attribute = with_attribute(units, |w| literal(w, token));
        case("literal of an attribute", attribute, format!("<P a=\"{text}\"/>"));
        let behind = with_attribute(units, |w| {
            w.substitution(0x0e, 0);
            literal(w, token);
        });
        case("literal behind the value", behind, format!("<P a=\"{value}{text}\"/>"));
    }
    cases
}

/// In a BinXml value a literal keeps its zeros, though the fragment is from a
/// substitution, and a value of the inner instance drops them.
fn fragments() -> Vec<Question> {
    let around = |inner: &dyn Fn(&mut Writer)| {
        one_record(|w| {
            w.instance(|w| w.open("P", |w| w.substitution(0x0e, 0)), &[Value::Fragment(inner)])
        })
    };
    let literal = around(&|w| w.open("i", |w| w.units(&[0x41, 0])));
    let value = around(&|w| {
        w.instance(|w| w.open("i", |w| w.substitution(0x0d, 0)), &[plain(0x01, [0x41, 0, 0, 0])])
    });
    let name = "85: closing zeros of a fragment's";
    vec![
        Question::text(format!("{name} literal"), literal, "<P><i>A\u{fffd}</i></P>"),
        Question::text(format!("{name} value"), value, "<P><i>A</i></P>"),
    ]
}

/// Strings of 62,000 bytes of zeros, with a letter at their front or end or not.
fn long_ones() -> Vec<Question> {
    let zeros = vec![0; 31_000];
    let front = [&[0x41], &zeros[1..]].concat();
    let end = [&zeros[1..], &[0x41]].concat();
    flat([
        values(&zeros, ""),
        values(&front, "A"),
        values(&end, &("\u{fffd}".repeat(30_999) + "A")),
    ])
}

/// An odd size is refused before anything is dropped.
fn odd_sizes() -> Vec<Question> {
    let odd = [&[0][..], &[0; 3], &[0x41, 0, 0], &[0, 0x41, 0], &[0; 61_999]];
    renamed(83, odd.into_iter().flat_map(|bytes| wrong(0x01, bytes)).collect())
}

/// A text of 65,536 bytes, 7 of tags and 21,843 characters of three bytes, that
/// fits the room of a listing because the last unit is a zero. A unit that is not
/// zero makes it one byte longer, and a literal's zero three.
fn room() -> Vec<Question> {
    let units = |last: u16| [&[0x20ac; 21_843], &[last][..]].concat();
    let text = |last: &str| format!("<P>{}{last}</P>", "€".repeat(21_843));
    let literal = one_record(|w| w.open("P", |w| w.units(&units(0))));
    vec![
        Question::text("85: room, a closing zero", shown(1, &u16s(&units(0))), text("")),
        Question::text("85: room, a letter", shown(1, &u16s(&units(0x41))), text("A")),
        Question::text("85: room, a literal's closing zero", literal, text("\u{fffd}")),
    ]
}

pub fn all() -> Vec<Question> {
    let strings = STRINGS.into_iter().flat_map(|(units, value, literal)| {
        flat([values(units, value), literals(units, value, literal)])
    });
    flat([strings.collect(), fragments(), long_ones(), odd_sizes(), room()])
}
