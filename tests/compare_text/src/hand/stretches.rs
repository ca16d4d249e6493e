//! Lengths inside lengths: elements, attribute lists, inline things and BinXml
//! values each stay in what holds them.

use super::examples::first_with;
use super::flat;
use crate::question::Question;
use log_writer::*;

/// An element with an attribute list of the given bytes and length.
fn list(length: usize, bytes: &[u8], rest: &[u8]) -> Vec<u8> {
    one_record(|w| {
        w.element(0x41, |w| {
            w.name("P");
            w.u32(length);
            w.put(bytes);
            w.put(rest);
        });
        w.put(&[0; 40]);
    })
}

/// An attribute list with what `inside` writes, of the length that it has and
/// `more`, and then `rest`.
fn list_of(more: isize, inside: impl FnOnce(&mut Writer), rest: &[u8]) -> Vec<u8> {
    one_record(|w| {
        w.element(0x41, |w| {
            w.name("P");
            let mut inner = Writer::at(w.here() + 4);
            inside(&mut inner);
            w.u32((inner.bytes.len() as isize + more) as usize);
            w.put(&inner.bytes);
            w.put(rest);
        });
        w.put(&[0; 40]);
    })
}

fn attribute_lists() -> Vec<Question> {
    let a = |w: &mut Writer| w.attribute("a", |w| w.literal("xy"));
    let two = |w: &mut Writer| {
        w.attribute("a", |_| ());
        w.attribute("b", |_| ());
    };
    let stray = |w: &mut Writer| {
        w.attribute("a", |_| ());
        w.put(&[0x00]);
    };
    let refused = |name: &str, chunk| Question::refused(format!("17: {name}"), chunk, 8);
    vec![
        Question::text("17: a list", list_of(0, a, &[3]), "<P a=\"xy\"/>"),
        Question::text("17: a list of two", list_of(0, two, &[3]), "<P a=\"\" b=\"\"/>"),
        refused("a list of length 0", list(0, &[], &[3])),
        refused("a list of length 0 before an attribute", list_of(-25, a, &[3])),
        refused("a literal beyond the list", list_of(-1, a, &[3])),
        refused("a literal's count beyond the list", list_of(-5, a, &[3])),
        refused("a literal's type beyond the list", list_of(-7, a, &[3])),
        refused("a name beyond the list", list_of(-9, a, &[3])),
        refused("a pointer beyond the list", list_of(-21, a, &[3])),
        refused("a list one longer than its attribute", list_of(1, a, &[3])),
        refused("a list with a byte behind its attribute", list_of(1, a, &[0, 3])),
        refused("a list that leaves the element", list_of(2, a, &[3])),
        refused("the greatest length", list(usize::MAX, &[], &[3])),
        refused("a token that is none of a list's", list_of(0, stray, &[3])),
    ]
}

/// An element P of items `<e/>` whose length is off by `more`.
fn element_lengths() -> Vec<Question> {
    let with = |more: isize, inner: isize| {
        let mut chunk = one_record(|w| {
            w.open("P", |w| w.empty("e"));
            w.put(&[4, 4, 4, 0]);
        });
        // P: token 540, length 543, name 547 to 563, 02; e: token 564, length 567.
        let length = chunk[543] as isize;
        chunk[543] = (length + more) as u8;
        let length = chunk[567] as isize;
        chunk[567] = (length + inner) as u8;
        chunk
    };
    let mut large = with(0, 0);
    put_u32(&mut large, 543, u32::MAX);
    let mut bound = with(0, 0);
    put_u32(&mut bound, 543, 65_000);
    vec![
        Question::text("lengths as they are", with(0, 0), "<P><e/></P>"),
        Question::refused("a length one longer than its 04", with(1, 0), 8),
        Question::refused("a length one shorter than its 04", with(-1, 0), 8),
        Question::refused("an inner length one longer than its 03", with(0, 1), 8),
        Question::refused("an inner length one shorter than its 03", with(0, -1), 8),
        Question::refused("an inner length that leaves the outer", with(0, 2), 8),
        Question::refused("the greatest length of an element", large, 8),
        Question::refused("a length that leaves the record", bound, 8),
    ]
}

/// Elements cut anywhere: their length is all that is left.
fn cut_elements() -> Vec<Question> {
    let mut whole = Writer::at(BODY + 4 + 7);
    whole.name("P");
    whole.counted(|w| w.attribute("a", |w| w.literal("x")));
    whole.items(|w| w.literal("y"));
    let cut = |kept: usize| {
        one_record(|w| {
            w.put(&[0x41, 0, 0]);
            w.counted(|w| w.put(&whole.bytes[..kept]));
            w.put(&[3, 4, 3, 4, 3, 4, 0, 0, 0, 0]);
        })
    };
    let length = whole.bytes.len();
    let mut cases = vec![Question::text("an element", cut(length), "<P a=\"x\">y</P>")];
    for kept in 0..length {
        let name = format!("an element cut to {kept} bytes");
        cases.push(Question::refused(name, cut(kept), 8));
    }
    cases
}

fn inline_refused(name: &str, chunk: Vec<u8>) -> Question {
    Question::refused(format!("19: {name}"), chunk, 8)
}

/// Inline names that leave their stretch, in the record and beyond the chunk.
fn inline_names() -> Vec<Question> {
    // A name of two units in an element whose length holds only one.
    let name = one_record(|w| {
        w.put(&[0x01, 0, 0]);
        w.u32(4 + 8 + 2 + 2 + 1);
        w.name("PQ");
        w.put(&[3, 3, 3, 3]);
    });
    let attribute_name = one_record(|w| {
        w.element(0x41, |w| {
            w.name("P");
            w.u32(1 + 4 + 8 + 2 + 2);
            w.put(&[0x06]);
            w.name("ab");
            w.put(&[3]);
        });
    });
    vec![
        inline_refused("a name that leaves its element", name),
        inline_refused("an attribute's name that leaves its list", attribute_name),
        inline_refused("a name that leaves the chunk", first_with(&[(595, &[0xff, 0xff])])),
    ]
}

/// Inline definitions in a record, and in a BinXml value that is cut.
fn inline_definitions() -> Vec<Question> {
    let value = one_record(|w| {
        let inner = |w: &mut Writer| w.instance(|w| w.empty("i"), &[]);
        w.instance(|w| w.open("P", |w| w.substitution(0x0d, 0)), &[Value::Fragment(&inner)]);
    });
    let cut_value = |bytes: u8| {
        let mut chunk = value.clone();
        // The size of the one value, which stands after definition and count.
        chunk[612] -= bytes;
        chunk
    };
    vec![
        Question::text("19: a definition in a value", value.clone(), "<P><i/></P>"),
        inline_refused("a value that ends in the count", cut_value(1)),
        inline_refused("a value that ends with the definition", cut_value(4)),
        inline_refused("a value that ends in the definition", cut_value(5)),
        inline_refused("a value that ends in the fixed part", cut_value(35)),
        inline_refused("a definition that leaves the record", first_with(&[(570, &[45])])),
        inline_refused("a definition up to the record's end", first_with(&[(570, &[44])])),
        inline_refused("a definition that leaves the chunk", first_with(&[(572, &[1])])),
    ]
}

pub fn all() -> Vec<Question> {
    flat([
        attribute_lists(),
        element_lengths(),
        cut_elements(),
        inline_names(),
        inline_definitions(),
    ])
}
