//! Every byte at every place where a token is due, elements with and without
//! the two unread bytes, and substitutions outside a definition.

use super::examples::first_with;
use super::flat;
use crate::question::Question;
use log_writer::*;

/// All bytes but the allowed ones at one place are 8.
fn every_other(name: &str, allowed: &[u8], chunk: &dyn Fn(u8) -> Vec<u8>) -> Vec<Question> {
    (0..=255)
        .filter(|byte| !allowed.contains(byte))
        .map(|byte| Question::refused(format!("23: {byte:02x} {name}"), chunk(byte), 8))
        .collect()
}

/// An element whose attribute list is followed by `after`; `inside` is the
/// first byte of what follows the attribute's name in the list.
fn attribute_and(token: u8, inside: Option<u8>, after: u8) -> Vec<u8> {
    one_record(|w| {
        w.element(0x41, |w| {
            w.name("P");
            w.counted(|w| {
                w.token(token);
                w.name("a");
                if let Some(byte) = inside {
                    w.put(&[byte, 1, 0, 0]);
                }
            });
            w.token(after);
        });
    })
}

/// In the first example: the record's fragment 540, the definition's element
/// 578, 02 601, an item 602, 04 606, 00 607.
fn in_the_example() -> Vec<Question> {
    let at = |offset: usize| move |byte: u8| first_with(&[(offset, &[byte])]);
    flat([
        every_other("after a fragment's header", &[0x0c, 0x01, 0x41], &at(540)),
        every_other("in the place of 0f", &[0x0f], &at(536)),
        every_other("in the place of the first 01", &[1], &at(537)),
        every_other("in the place of the second 01", &[1], &at(538)),
        every_other("in the place of 00", &[0], &at(539)),
        every_other("after a definition's header", &[0x01, 0x41], &at(578)),
        every_other("in the place of a definition's 0f", &[0x0f], &at(574)),
        every_other("in the place of a definition's 00", &[0], &at(577)),
        every_other("after a name", &[0x02, 0x03], &at(601)),
        // 01 and 41 as an item are elements of a wrong length, 05 and 45
        // literals of a wrong type, 0d and 0e substitutions; 04 is not the last byte.
        every_other("as an item", &[0x05, 0x45, 0x0d, 0x0e], &at(602)),
        // Items there are cut short.
        every_other("in the place of 04", &[0x04], &at(606)),
        every_other("after a definition's element", &[0x00], &at(607)),
    ])
}

fn in_attribute_lists() -> Vec<Question> {
    let items = [0x05, 0x45, 0x0d, 0x0e];
    let literal = |token: u8| attribute_and(0x06, Some(token), 0x03);
    let mut cases = flat([
        every_other("as an attribute", &[0x06, 0x46], &|byte| attribute_and(byte, None, 3)),
        // 06 and 46 there are attributes cut short.
        every_other("as an attribute's item", &items, &literal),
        every_other("after an attribute list", &[2, 3], &|byte| attribute_and(6, None, byte)),
    ]);
    for token in [0x06, 0x46] {
        let name = format!("23: {token:02x} as an attribute");
        cases.push(Question::text(name, attribute_and(token, None, 3), "<P a=\"\"/>"));
    }
    for token in [0x05, 0x45] {
        let name = format!("23: {token:02x} as an attribute's item");
        cases.push(Question::text(name, attribute_and(6, Some(token), 3), "<P a=\"\"/>"));
    }
    cases.push(Question::refused("23: 02 at an element's end", attribute_and(6, None, 2), 8));
    cases
}

fn as_items() -> Vec<Question> {
    let item = |bytes: &'static [u8]| one_record(|w| w.open("P", |w| w.put(bytes)));
    let text = |name: &str, bytes, text: &str| Question::text(name, item(bytes), text);
    vec![
        text("23: 05", &[0x05, 1, 1, 0, 0x78, 0], "<P>x</P>"),
        text("23: 45", &[0x45, 1, 1, 0, 0x78, 0], "<P>x</P>"),
        Question::refused("23: 0d without an instance", item(&[0x0d, 0, 0, 0]), 10),
        Question::refused("23: 0e without an instance", item(&[0x0e, 0, 0, 0]), 10),
    ]
}

/// A BinXml value whose fragment has no instance.
fn in_value(inside: &dyn Fn(&mut Writer)) -> Vec<u8> {
    one_record(|w| {
        let element = |w: &mut Writer| w.open("O", |w| w.substitution(0x0d, 0));
        w.instance(element, &[Value::Fragment(inside)]);
    })
}

fn unread_bytes() -> Vec<Question> {
    let both = |w: &mut Writer| w.open("i", |w| w.empty("j"));
    let with = in_value(&|w| {
        w.bare = false;
        both(w);
    });
    let defined = in_value(&|w| w.instance(both, &[]));
    let inner_with = in_value(&|w| {
        w.open("i", |w| {
            w.bare = false;
            w.empty("j");
            w.bare = true;
        });
    });
    let own_without = one_record(|w| {
        w.bare = true;
        both(w);
    });
    // A definition in a value, and in one of its values a fragment of its own.
    let in_turn = in_value(&|w| {
        let outer = |w: &mut Writer| {
            w.open("d", |w| {
                w.empty("e");
                w.substitution(0x0d, 0);
            });
        };
        w.instance(outer, &[Value::Fragment(&both)]);
    });
    vec![
        Question::text("21: the record's own fragment", one_record(both), "<i><j/></i>"),
        Question::refused("21: the record's own without them", own_without, 8),
        Question::text("21: a value's fragment", in_value(&both), "<O><i><j/></i></O>"),
        Question::refused("21: a value's fragment with them", with, 8),
        Question::refused("21: inside a value's element with them", inner_with, 8),
        Question::text("21: a definition in a value", defined, "<O><i><j/></i></O>"),
        Question::text("21: in turn", in_turn, "<O><d><e/><i><j/></i></d></O>"),
    ]
}

fn no_values() -> Vec<Question> {
    let item = |token: u8| move |w: &mut Writer| w.open("i", |w| w.substitution(token, 0));
    let attribute = |w: &mut Writer| {
        w.with_attributes("i", |w| w.attribute("a", |w| w.substitution(0x0e, 0)));
    };
    vec![
        Question::refused("21: 0d in the record's own", one_record(item(0x0d)), 10),
        Question::refused("21: 0e in the record's own", one_record(item(0x0e)), 10),
        Question::refused("21: 0e in its attribute", one_record(attribute), 10),
        Question::refused("21: 0d in a value's fragment", in_value(&item(0x0d)), 10),
        Question::refused("21: 0e in a value's fragment", in_value(&item(0x0e)), 10),
        Question::refused("21: 0e in a value's attribute", in_value(&attribute), 10),
    ]
}

fn instances() -> Vec<Question> {
    let instance = |w: &mut Writer| w.instance(|w| w.empty("i"), &[]);
    let in_definition = one_record(|w| w.instance(instance, &[]));
    let as_item = one_record(|w| w.open("P", instance));
    let two = one_record(|w| {
        w.instance(
            |w| {
                w.empty("P");
                w.empty("Q");
            },
            &[],
        );
    });
    vec![
        Question::refused("22: an instance in a definition", in_definition, 8),
        Question::refused("22: an instance as an item", as_item, 8),
        Question::refused("22: two elements in a definition", two, 8),
        Question::text("22: an instance in a value", in_value(&instance), "<O><i/></O>"),
    ]
}

pub fn all() -> Vec<Question> {
    flat([
        in_the_example(),
        in_attribute_lists(),
        as_items(),
        unread_bytes(),
        no_values(),
        instances(),
    ])
}
