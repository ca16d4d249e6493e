//! Every row of document 01's type table, in an element and in an attribute.

use super::examples::shown;
use super::flat;
use crate::question::Question;
use log_writer::*;

fn in_attribute(kind: u8, value: &[u8]) -> Vec<u8> {
    one_record(|w| {
        let element = |w: &mut Writer| {
            w.with_attributes("P", |w| w.attribute("a", |w| w.substitution(0x0d, 0)));
        };
        w.instance(element, &[plain(kind, value)]);
    })
}

pub fn both(kind: u8, value: &[u8], text: &str) -> Vec<Question> {
    let name = |place: &str| format!("type {kind:02x} {place}: {text}");
    vec![
        Question::text(name("element"), shown(kind, value), format!("<P>{text}</P>")),
        Question::text(name("attribute"), in_attribute(kind, value), format!("<P a=\"{text}\"/>")),
    ]
}

pub fn wrong(kind: u8, value: &[u8]) -> Vec<Question> {
    let name = |place: &str| format!("type {kind:02x} {place}: wrong, {} bytes", value.len());
    vec![
        Question::refused(name("element"), shown(kind, value), 11),
        Question::refused(name("attribute"), in_attribute(kind, value), 11),
    ]
}

/// The same questions, named after a question of docs/DECISIONS.md.
pub fn named(number: u32, questions: Vec<Question>) -> Vec<Question> {
    let rename = |mut question: Question| {
        question.name = format!("{number}: {}", question.name);
        question
    };
    questions.into_iter().map(rename).collect()
}

/// Type, bytes and text.
const NUMBERS: [(u8, &[u8], &str); 23] = [
    (0x00, &[], ""),
    (0x00, &[1, 2, 3], ""),
    (0x03, &[0x80], "-128"),
    (0x03, &[0x7f], "127"),
    (0x04, &[0xff], "255"),
    (0x04, &[0], "0"),
    (0x05, &[0x00, 0x80], "-32768"),
    (0x05, &[0xff, 0xff], "-1"),
    (0x06, &[0xff, 0xff], "65535"),
    (0x06, &[0x00, 0x01], "256"),
    (0x07, &[0, 0, 0, 0x80], "-2147483648"),
    (0x07, &[0xff, 0xff, 0xff, 0x7f], "2147483647"),
    (0x08, &[0xff, 0xff, 0xff, 0xff], "4294967295"),
    (0x09, &[0, 0, 0, 0, 0, 0, 0, 0x80], "-9223372036854775808"),
    (0x09, &[0xf6, 0xff, 0xff, 0xff, 0xff, 0xff, 0xff, 0xff], "-10"),
    (0x0a, &[0xff; 8], "18446744073709551615"),
    (0x0a, &[0, 0, 0, 0, 1, 0, 0, 0], "4294967296"),
    (0x10, &[0; 4], "0x0"),
    (0x10, &[0xcd, 0xab, 0, 0], "0xabcd"),
    (0x10, &[0, 0, 0, 0, 0, 0, 0, 0x0f], "0xf00000000000000"),
    (0x14, &[0x10, 0, 0, 0], "0x10"),
    (0x15, &[0, 0, 0, 0, 0, 0, 0, 0], "0x0"),
    (0x15, &[0xff; 8], "0xffffffffffffffff"),
];

const REALS: [(u8, &[u8], &str); 4] = [
    (0x0b, &[0x00, 0x00, 0x80, 0x3f], "0x3f800000"),
    (0x0b, &[0; 4], "0x00000000"),
    (0x0c, &[0xab, 0, 0, 0, 0, 0, 0, 0xc0], "0xc0000000000000ab"),
    (0x0b, &[1, 2, 3, 0xf4], "0xf4030201"),
];

const BOOLEANS: [(u8, &[u8], &str); 4] = [
    (0x0d, &[0; 4], "false"),
    (0x0d, &[1, 0, 0, 0], "true"),
    (0x0d, &[0, 0, 0, 0x80], "true"),
    (0x0d, &[0, 2, 0, 0], "true"),
];

const GUID: [u8; 16] = [
    0x48, 0xfd, 0x7d, 0xba, 0x4e, 0xa4, 0x07, 0xd4, 0xeb, 0x5d, 0x83, 0xcc, 0x72, 0x58, 0x94, 0x41,
];

fn identifiers() -> Vec<Question> {
    let sub_18 = [1, 1, 0, 0, 0, 0, 0, 5, 18, 0, 0, 0];
    let high = [1, 2, 0xab, 0, 0, 0, 0, 1, 0, 0, 0, 0, 0xff, 0xff, 0xff, 0xff];
    let fifteen = [&[1, 15, 0, 0, 0xff, 0xff, 0xff, 0xff][..], &[7, 0, 0, 0].repeat(15)].concat();
    let fifteen_text = "S-1-4294967295".to_string() + &"-7".repeat(15);
    let sixteen = [&[1, 16, 0, 0, 0, 0, 0, 5][..], &[7, 0, 0, 0].repeat(16)].concat();
    flat([
        both(0x0e, &[], ""),
        both(0x0e, &[0x00, 0x9a, 0xff, 0x0b], "009AFF0B"),
        both(0x0f, &GUID, "{BA7DFD48-A44E-D407-EB5D-83CC72589441}"),
        both(0x13, &[1, 0, 0, 0, 0, 0, 0, 0], "S-1-0"),
        both(0x13, &sub_18, "S-1-5-18"),
        both(0x13, &high, "S-1-0xAB0000000001-0-4294967295"),
        both(0x13, &[1, 0, 0, 1, 0, 0, 0, 0], "S-1-0x000100000000"),
        both(0x13, &fifteen, &fifteen_text),
        wrong(0x13, &sixteen),
        wrong(0x13, &[2, 0, 0, 0, 0, 0, 0, 5]),
        wrong(0x13, &[1, 1, 0, 0, 0, 0, 0, 5]),
        wrong(0x13, &[1, 0, 0, 0, 0, 0, 0, 5, 1, 0, 0, 0]),
        wrong(0x13, &[]),
        wrong(0x13, &[1, 0, 0, 0, 0, 0, 0]),
        wrong(0x13, &[1, 0, 0, 0, 0, 0, 0, 5, 0]),
    ])
}

/// The types whose values have one of a few sizes, by size.
const SIZES: [(usize, &[u8]); 5] = [
    (1, &[0x03, 0x04]),
    (2, &[0x05, 0x06]),
    (4, &[0x07, 0x08, 0x0b, 0x0d, 0x10, 0x14]),
    (8, &[0x09, 0x0a, 0x0c, 0x10, 0x11, 0x15]),
    (16, &[0x0f, 0x12]),
];

/// Sizes of each such type one off, and types that the table has not.
fn sizes_and_types() -> Vec<Question> {
    let mut cases = Vec::new();
    for (size, kinds) in SIZES {
        for given in [0, size - 1, size + 1, 2 * size + 1] {
            cases.extend(kinds.iter().flat_map(|kind| wrong(*kind, &vec![1; given])));
        }
    }
    cases.extend(wrong(0x01, &[0x41]));
    cases.extend(wrong(0x01, &[0x41, 0, 0x42]));
    for kind in (0..=255).filter(|kind| !matches!(kind, 0 | 1 | 3..=0x15 | 0x21)) {
        cases.extend(wrong(kind, &[]));
        cases.extend(wrong(kind, &[0; 8]));
    }
    cases
}

/// BinXml in an attribute, and in an element among other items.
fn fragments() -> Vec<Question> {
    let inner = |w: &mut Writer| w.open("i", |w| w.literal("x"));
    let values = || [plain(0x04, [1]), Value::Fragment(&inner), plain(0x04, [2])];
    let element = one_record(|w| {
        let shown = |w: &mut Writer| {
            w.open("P", |w| {
                [2, 1, 0, 1].into_iter().for_each(|number| w.substitution(0x0e, number))
            });
        };
        w.instance(shown, &values());
    });
    let attribute = |token: u8| {
        one_record(|w| {
            let shown = |w: &mut Writer| {
                w.with_attributes("P", |w| w.attribute("a", |w| w.substitution(token, 1)));
            };
            w.instance(shown, &values());
        })
    };
    vec![
        Question::text("type 21 among others", element, "<P>2<i>x</i>1<i>x</i></P>"),
        Question::refused("type 21 in an attribute", attribute(0x0d), 11),
        Question::refused("type 21 in an attribute, optional", attribute(0x0e), 11),
    ]
}

fn table(rows: &[(u8, &[u8], &str)]) -> Vec<Question> {
    rows.iter().flat_map(|(kind, value, text)| both(*kind, value, text)).collect()
}

pub fn all() -> Vec<Question> {
    flat([
        table(&NUMBERS),
        named(27, table(&REALS)),
        named(28, table(&BOOLEANS)),
        identifiers(),
        sizes_and_types(),
        fragments(),
    ])
}
