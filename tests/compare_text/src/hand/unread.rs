//! Fields and bytes that are not read: whatever they hold, the text is the same.

use super::examples::{first, first_with};
use super::flat;
use crate::question::Question;
use log_writer::*;

/// Start and end of what the first example does not read: the chunk's header,
/// the record's number and time, the instance's byte and id, the definition's
/// next and GUID, the element's two bytes, the name's next and hash, the
/// substitution's byte, the descriptor's byte, and what follows the record.
const UNREAD: [(&str, usize, usize); 9] = [
    ("the chunk's header", 0, 512),
    ("number and time", 520, 536),
    ("the instance's byte and id", 541, 546),
    ("next and GUID", 550, 570),
    ("the element's two bytes", 579, 581),
    ("the name's next and hash", 589, 595),
    ("the substitution's byte", 605, 606),
    ("the descriptor's byte", 615, 616),
    ("what follows the record", 622, 65_536),
];

fn varied() -> Vec<Question> {
    let mut cases = Vec::new();
    let mut everything = first();
    let mut random = Random::new(1);
    for (name, from, to) in UNREAD {
        for bytes in [vec![0; to - from], vec![0xff; to - from], random.bytes(to - from)] {
            let mut chunk = first();
            put(&mut chunk, from, &bytes);
            put(&mut everything, from, &bytes);
            cases.push(Question::text(format!("unread: {name}"), chunk, "<P>-32768</P>"));
        }
    }
    cases.push(Question::text("unread: everything", everything, "<P>-32768</P>"));
    // The substitution's byte names the unsigned type, the descriptor another.
    for kind in [0x00, 0x06, 0x21, 0x99] {
        let chunk = first_with(&[(605, &[kind])]);
        cases.push(Question::text("unread: the substitution's type", chunk, "<P>-32768</P>"));
    }
    cases
}

/// Bytes after a fragment, after a definition's 00 and after the values.
fn stepped_over() -> Vec<Question> {
    let stray: &[u8] = &[0x04, 0x0f, 0x01, 0xff, 0x99];
    let after_element = one_record(|w| {
        w.empty("P");
        w.put(stray);
    });
    let after_values = one_record(|w| {
        w.instance(|w| w.open("P", |w| w.substitution(0x0d, 0)), &[plain(0x04, [1])]);
        w.put(stray);
    });
    let after_fragment = one_record(|w| {
        let inner = |w: &mut Writer| {
            w.empty("i");
            w.put(stray);
        };
        let both = |w: &mut Writer| (0..2).for_each(|number| w.substitution(0x0d, number));
        w.instance(|w| w.open("P", both), &[Value::Fragment(&inner), plain(0x04, [1])]);
    });
    vec![
        Question::text("unread: after the fragment", after_element, "<P/>"),
        Question::text("unread: after the values", after_values, "<P>1</P>"),
        Question::text("unread: after a definition's 00", after_00(stray), "<P>1</P>"),
        Question::text("unread: after a value's fragment", after_fragment, "<P><i/>1</P>"),
    ]
}

/// A definition with more data after its 00.
fn after_00(stray: &[u8]) -> Vec<u8> {
    one_record(|w| {
        w.instance_start();
        w.pointer_here();
        w.unread(&[0; 20]);
        w.counted(|w| {
            w.stream_header();
            w.open("P", |w| w.substitution(0x0d, 0));
            w.token(0x00);
            w.put(stray);
        });
        w.values(&[plain(0x04, [1])]);
    })
}

/// Values that no substitution shows may be wrong in every way.
fn unused_values() -> Vec<Question> {
    let chunk = one_record(|w| {
        let values = [
            plain(0x02, [1, 2, 3]),
            plain(0x05, [1]),
            plain(0x11, [0xff; 8]),
            plain(0x21, [0x99]),
            plain(0x01, [1]),
            plain(0x06, [5, 0]),
            plain(0xff, []),
        ];
        w.instance(|w| w.open("P", |w| w.substitution(0x0d, 5)), &values);
    });
    vec![Question::text("unused values that are wrong", chunk, "<P>5</P>")]
}

/// A record whose values are not all shown, or shown twice, or in another order.
fn order_of_values() -> Vec<Question> {
    let chunk = one_record(|w| {
        let element = |w: &mut Writer| {
            w.open("P", |w| {
                for number in [2, 0, 0, 1, 2] {
                    w.substitution(0x0d, number);
                    w.literal(",");
                }
            });
        };
        let values = [plain(0x04, [1]), plain(0x06, [2, 0]), plain(0x08, [3, 0, 0, 0])];
        w.instance(element, &values);
    });
    vec![Question::text("values in another order", chunk, "<P>3,1,1,2,3,</P>")]
}

pub fn all() -> Vec<Question> {
    flat([varied(), stepped_over(), unused_values(), order_of_values()])
}
