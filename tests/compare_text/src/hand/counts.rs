//! The limit of 65,536 attributes and items, at it and one past it, with each
//! kind of thing as the last.

use super::flat;
use crate::question::Question;
use log_writer::*;

const LIMIT: usize = 65_536;
/// A fragment that counts 256: an element and 255 literals.
const INNER: &str = "<i></i>";

/// An element whose things count `LIMIT - left` in all, and then what `last`
/// writes. The value 0 is a fragment that counts 256, value 1 is Null, value 2
/// is the number 7.
fn with_left(left: usize, last: impl Fn(&mut Writer)) -> Vec<u8> {
    let inner = |w: &mut Writer| w.open("i", |w| (0..255).for_each(|_| w.literal("")));
    one_record(|w| {
        let element = |w: &mut Writer| {
            w.open("O", |w| {
                // 254 substitutions that count 257 each, and the element itself.
                (0..254).for_each(|_| w.substitution(0x0d, 0));
                (0..LIMIT - 254 * 257 - 1 - left).for_each(|_| w.literal(""));
                last(w);
            });
        };
        w.instance(element, &[Value::Fragment(&inner), plain(0x00, []), plain(0x04, [7])]);
    })
}

fn around(last: &str) -> String {
    "<O>".to_string() + &INNER.repeat(254) + last + "</O>"
}

type Last = fn(&mut Writer);

/// What is written last, how much it counts, and its text.
const LASTS: [(&str, Last, usize, &str); 10] = [
    ("literal", |w| w.literal("x"), 1, "x"),
    ("substitution", |w| w.substitution(0x0d, 2), 1, "7"),
    ("optional substitution", |w| w.substitution(0x0e, 1), 1, ""),
    ("empty element", |w| w.empty("e"), 1, "<e/>"),
    ("element and literal", |w| w.open("e", |w| w.literal("x")), 2, "<e>x</e>"),
    ("attribute", |w| w.with_attributes("e", |w| w.attribute("a", |_| ())), 2, "<e a=\"\"/>"),
    ("attribute and its item", attribute_with_item, 3, "<e a=\"7\"/>"),
    ("attribute left out", attribute_left_out, 3, "<e/>"),
    ("attribute left out and literal", left_out_and_literal, 4, "<e/>x"),
    ("two attributes", two_attributes, 5, "<e b=\"xx\" b=\"\"/>"),
];

fn attribute_with_item(w: &mut Writer) {
    w.with_attributes("e", |w| w.attribute("a", |w| w.substitution(0x0d, 2)));
}

fn attribute_left_out(w: &mut Writer) {
    w.with_attributes("e", |w| w.attribute("a", |w| w.substitution(0x0e, 1)));
}

fn left_out_and_literal(w: &mut Writer) {
    attribute_left_out(w);
    w.literal("x");
}

/// One of two literals, and one of the same name without items.
fn two_attributes(w: &mut Writer) {
    w.with_attributes("e", |w| {
        w.attribute("b", |w| {
            w.literal("x");
            w.literal("x");
        });
        w.attribute("b", |_| ());
    });
}

fn at_and_past() -> Vec<Question> {
    let mut cases = Vec::new();
    for (name, last, counts, text) in LASTS {
        let at = with_left(counts, last);
        cases.push(Question::text(format!("7: 65,536 with {name}"), at, around(text)));
        for left in 0..counts {
            let past = with_left(left, last);
            cases.push(Question::refused(format!("7: past with {name}, {left} left"), past, 12));
        }
    }
    cases
}

/// At the limit the count is tested before the fields of a token, and a token
/// that has no place there is not counted.
fn tokens_at_the_limit() -> Vec<Question> {
    let at_limit = |bytes: &'static [u8]| with_left(0, |w| w.put(bytes));
    let refused = |name: &str, bytes, number| {
        Question::refused(format!("7: at the limit, {name}"), at_limit(bytes), number)
    };
    vec![
        refused("a literal of another type", &[0x05, 0x02, 0, 0], 12),
        refused("a substitution of no value", &[0x0d, 9, 0, 0], 12),
        refused("an element of a wrong length", &[0x01, 0, 0, 0xff, 0xff, 0, 0], 12),
        refused("an unknown token", &[0x99, 0, 0, 0], 8),
        refused("a misplaced attribute", &[0x06, 0, 0, 0], 8),
        refused("a misplaced instance", &[0x0c, 0, 0, 0], 8),
    ]
}

/// What is not counted: 65,536 elements take as many 02 and 04, and the
/// fragments and instances around them are not counted either.
fn not_counted() -> Vec<Question> {
    let inner = |w: &mut Writer| {
        w.instance(|w| w.open("i", |w| (0..127).for_each(|_| w.open("j", |_| ()))), &[]);
    };
    let chunk = one_record(|w| {
        let element = |w: &mut Writer| {
            w.open("O", |w| {
                (0..508).for_each(|_| w.substitution(0x0d, 0));
                // 1 + 508 * 129 = 65,533.
                (0..3).for_each(|_| w.literal(""));
            });
        };
        w.instance(element, &[Value::Fragment(&inner)]);
    });
    let inner_text = "<i>".to_string() + &"<j></j>".repeat(127) + "</i>";
    let text = "<O>".to_string() + &inner_text.repeat(508) + "</O>";
    vec![Question::text("7: instances and closing tokens are not counted", chunk, text)]
}

pub fn all() -> Vec<Question> {
    flat([at_and_past(), tokens_at_the_limit(), not_counted()])
}
