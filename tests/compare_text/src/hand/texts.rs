//! The text of elements, attributes and strings.

use super::examples::shown;
use super::flat;
use crate::question::Question;
use log_writer::*;

/// The text of an element whose one attribute has what `items` writes. Value 0
/// is Null, 1 an empty string, 2 Null of two bytes, 3 the number 7.
fn attribute(name: &str, text: &str, items: impl FnOnce(&mut Writer)) -> Question {
    let chunk = one_record(|w| {
        let values = [plain(0, []), plain(1, []), plain(0, [1, 2]), plain(4, [7])];
        w.instance(|w| w.with_attributes("P", |w| w.attribute("a", items)), &values);
    });
    Question::text(format!("24: {name}"), chunk, text)
}

fn optional(w: &mut Writer, number: usize) {
    w.substitution(0x0e, number);
}

fn left_out() -> Vec<Question> {
    let both = |w: &mut Writer, first: &dyn Fn(&mut Writer), second: &dyn Fn(&mut Writer)| {
        first(w);
        second(w);
    };
    let null = |w: &mut Writer| optional(w, 0);
    let literal = |w: &mut Writer| w.literal("");
    vec![
        attribute("an optional Null", "<P/>", null),
        attribute("an optional Null of two bytes", "<P/>", |w| optional(w, 2)),
        attribute("a normal Null", "<P a=\"\"/>", |w| w.substitution(0x0d, 0)),
        attribute("an optional empty string", "<P a=\"\"/>", |w| optional(w, 1)),
        attribute("an optional number", "<P a=\"7\"/>", |w| optional(w, 3)),
        attribute("no item", "<P a=\"\"/>", |_| ()),
        attribute("an empty literal", "<P a=\"\"/>", literal),
        attribute("two optional Nulls", "<P a=\"\"/>", |w| both(w, &null, &null)),
        attribute("a literal and a Null", "<P a=\"\"/>", |w| both(w, &literal, &null)),
        attribute("a Null and a literal", "<P a=\"\"/>", |w| both(w, &null, &literal)),
        attribute("a Null and a number", "<P a=\"7\"/>", |w| both(w, &null, &|w| optional(w, 3))),
        attribute("a number and a Null", "<P a=\"7\"/>", |w| both(w, &|w| optional(w, 3), &null)),
    ]
}

/// Elements of Null values stay, and so do repeated attributes.
fn elements() -> Vec<Question> {
    let null = one_record(|w| {
        w.instance(|w| w.open("P", |w| optional(w, 0)), &[plain(0x00, [])]);
    });
    let repeated = one_record(|w| {
        let element = |w: &mut Writer| {
            w.element(0x41, |w| {
                w.name("P");
                w.counted(|w| {
                    w.attribute("a", |w| w.literal("1"));
                    w.attribute("b", |w| optional(w, 0));
                    w.attribute("a", |w| w.literal("<\"'>"));
                });
                w.items(|w| {
                    w.literal("t&");
                    w.with_attributes("q:r-1._x", |w| w.attribute("_", |_| ()));
                    w.literal(" u");
                });
            });
        };
        w.instance(element, &[plain(0x00, [])]);
    });
    let text = "<P a=\"1\" a=\"&lt;&quot;&apos;&gt;\">t&amp;<q:r-1._x _=\"\"/> u</P>";
    vec![
        Question::text("24: an element of a Null", null, "<P></P>"),
        Question::text("attributes and items", repeated, text),
    ]
}

/// Names that are allowed, and names of one unit that is not.
fn names() -> Vec<Question> {
    let named = |name: &str| one_record(|w| w.empty(name));
    let mut cases = Vec::new();
    for name in ["a", "Z", "_", ":", "a-", "b.", "c9", "xml", "a::b", "_-.:0", "AZaz09"] {
        cases.push(Question::text(format!("name {name}"), named(name), format!("<{name}/>")));
    }
    for code in 0..128u8 {
        let single = char::from(code).to_string();
        let starts = code.is_ascii_alphabetic() || code == b'_' || code == b':';
        let continues = starts || code.is_ascii_digit() || code == b'-' || code == b'.';
        let second = format!("a{single}");
        if !starts {
            cases.push(Question::refused(format!("a name of {code}"), named(&single), 8));
        }
        if continues {
            let text = format!("<{second}/>");
            cases.push(Question::text(format!("a name of a and {code}"), named(&second), text));
        } else {
            cases.push(Question::refused(format!("a name of a and {code}"), named(&second), 8));
        }
    }
    cases.extend(names_of_other_units());
    cases
}

/// The first example's name with its unit (597), its end (599) or its count
/// (595) set to others.
fn names_of_other_units() -> Vec<Question> {
    let set = |at: usize, byte: u8| super::examples::first_with(&[(at, &[byte])]);
    vec![
        Question::refused("a name of no unit", one_record(|w| w.empty("")), 8),
        Question::refused("a name's unit of U+0150", set(598, 0x01), 8),
        Question::refused("a name's unit of U+FF50", set(598, 0xff), 8),
        Question::refused("a name's first end byte", set(599, 0x01), 8),
        Question::refused("a name's second end byte", set(600, 0x01), 8),
        Question::refused("a name's count one more", set(595, 2), 8),
        Question::refused("a name's count of 256 more", set(596, 1), 8),
    ]
}

/// A string of the given units, the last of them not zero, as a value in an
/// element, as a literal and as an attribute's literal.
fn string(name: &str, units: &[u16], text: &str) -> Vec<Question> {
    let literal = one_record(|w| w.open("P", |w| w.units(units)));
    let attribute =
        one_record(|w| w.with_attributes("P", |w| w.attribute("a", |w| w.units(units))));
    vec![
        Question::text(format!("{name}, value"), shown(1, &u16s(units)), format!("<P>{text}</P>")),
        Question::text(format!("{name}, literal"), literal, format!("<P>{text}</P>")),
        Question::text(format!("{name}, attribute"), attribute, format!("<P a=\"{text}\"/>")),
    ]
}

fn surrogates() -> Vec<Question> {
    let split = one_record(|w| {
        w.open("P", |w| {
            w.units(&[0xd83d]);
            w.units(&[0xde00]);
        });
    });
    let halves = [plain(1, [0x3d, 0xd8]), plain(1, [0x00, 0xde])];
    let values = one_record(|w| {
        let element = |w: &mut Writer| {
            w.open("P", |w| {
                w.substitution(0x0d, 0);
                w.substitution(0x0d, 1);
            });
        };
        w.instance(element, &halves);
    });
    flat([
        vec![
            Question::text("25: a pair over two literals", split, "<P>\u{fffd}\u{fffd}</P>"),
            Question::text("25: a pair over two values", values, "<P>\u{fffd}\u{fffd}</P>"),
        ],
        string("25: a pair", &[0xd83d, 0xde00], "😀"),
        string("25: two pairs", &[0xd800, 0xdc00, 0xdbff, 0xdfff], "\u{10000}\u{10ffff}"),
        string("25: a high one last", &[0x61, 0xd800], "a\u{fffd}"),
        string("25: a high one and a letter", &[0xd800, 0x61], "\u{fffd}a"),
        string("25: a high one and an escape", &[0xdbff, 0x26], "\u{fffd}&amp;"),
        string("25: two high ones and a low", &[0xd83d, 0xd83d, 0xde00], "\u{fffd}😀"),
        string("25: a low one first", &[0xde00, 0xd83d, 0xde00], "\u{fffd}😀"),
        string("25: a low one and a high", &[0xdc00, 0xd800], "\u{fffd}\u{fffd}"),
    ])
}

fn characters() -> Vec<Question> {
    flat([
        string("escapes", &[0x26, 0x3c, 0x3e, 0x22, 0x27], "&amp;&lt;&gt;&quot;&apos;"),
        string("spaces", &[9, 10, 13, 32], "&#9;&#10;&#13; "),
        string("26: controls", &[0, 1, 8, 11, 12, 14, 31], &"\u{fffd}".repeat(7)),
        string("26: 7f to 9f", &[0x7f, 0x80, 0x85, 0x9f, 0xa0], "\u{7f}\u{80}\u{85}\u{9f}\u{a0}"),
        string("26: up to d7ff and from e000", &[0xd7ff, 0xe000], "\u{d7ff}\u{e000}"),
        string("26: fffd to ffff", &[0xfffd, 0xfffe, 0xffff], &"\u{fffd}".repeat(3)),
        string("26: fdd0", &[0xfdd0, 0xfeff], "\u{fdd0}\u{feff}"),
        string("26: 1fffe and 10ffff", &[0xd83f, 0xdffe, 0xdbff, 0xdfff], "\u{1fffe}\u{10ffff}"),
        string("lengths in UTF-8", &[0x7f, 0x80, 0x7ff, 0x800], "\u{7f}\u{80}\u{7ff}\u{800}"),
        string("no unit", &[], ""),
        string("]]>", &[0x5d, 0x5d, 0x3e], "]]&gt;"),
    ])
}

pub fn all() -> Vec<Question> {
    flat([left_out(), elements(), names(), surrogates(), characters()])
}
