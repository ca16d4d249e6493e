//! Pointers to names and definitions: from where on, up to where, and into what.

use super::flat;
use crate::question::{Expected, Question};
use log_writer::*;

const AT: usize = 5_000;

/// A chunk with what was written at an offset, up to the chunk's end, and what
/// of it stands behind the chunk.
fn placed(mut chunk: Vec<u8>, offset: usize, thing: Writer, text: &str) -> Question {
    let fits = thing.bytes.len().min(CHUNK - offset);
    put(&mut chunk, offset, &thing.bytes[..fits]);
    Question::text("", chunk, text).at(AT as u64).behind(&thing.bytes[fits..])
}

/// A record at 5,000 of an element whose name is the one at an offset.
fn name_at(offset: usize) -> Question {
    let mut name = Writer::at(offset);
    name.bare_name("far");
    placed(pointing_name(offset), offset, name, "<far/>")
}

fn pointing_name(target: usize) -> Vec<u8> {
    record_at(AT, |w| {
        w.element(0x01, |w| {
            w.pointer(target);
            w.token(0x03);
        });
    })
}

/// A record at 5,000 of an instance whose definition is the one at an offset.
fn definition_at(offset: usize) -> Question {
    let chunk = record_at(AT, |w| w.pointing(offset, &[plain(0x04, [9])]));
    let mut definition = Writer::at(offset);
    definition.bare_definition(|w| w.open("D", |w| w.substitution(0x0d, 0)));
    placed(chunk, offset, definition, "<D>9</D>")
}

fn named(name: &str, question: Question) -> Question {
    Question { name: name.to_string(), ..question }
}

fn leaving(name: &str, question: Question) -> Question {
    Question { expected: Some(Expected::Refused(9)), ..named(name, question) }
}

/// The name takes 16 bytes, the definition 58.
fn at_the_bounds() -> Vec<Question> {
    vec![
        named("pointer 512, name", name_at(512)),
        leaving("pointer 511, name", name_at(511)),
        named("a name that ends at 65,536", name_at(65_520)),
        leaving("a name that ends at 65,537", name_at(65_521)),
        named("pointer 512, definition", definition_at(512)),
        leaving("pointer 511, definition", definition_at(511)),
        named("a definition that ends at 65,536", definition_at(65_478)),
        leaving("a definition that ends at 65,537", definition_at(65_479)),
    ]
}

/// Names and definitions that begin near the chunk's end or beyond it.
fn beyond() -> Vec<Question> {
    let mut cases = Vec::new();
    for target in [0, 1, 65_529, 65_535, 65_536, 65_537, 1 << 31, 0xffff_ffff, 0x1_0200] {
        let chunk = pointing_name(target);
        cases.push(Question::refused(format!("20: a name at {target}"), chunk, 9).at(AT as u64));
    }
    for target in [0, 65_513, 65_535, 65_536, 1 << 31, 0xffff_ffff, 0x1_0200] {
        let chunk = record_at(AT, |w| w.pointing(target, &[]));
        let name = format!("20: a definition at {target}");
        cases.push(Question::refused(name, chunk, 9).at(AT as u64));
    }
    // The fixed part fits, and the size that it states does not.
    for size in [0xffff_ffffu32, 0x8000_0000, 65_536, 60_002] {
        let mut chunk = record_at(AT, |w| w.pointing(5_511, &[]));
        put_u32(&mut chunk, 5_531, size);
        let name = format!("20: a definition of size {size}");
        cases.push(Question::refused(name, chunk, 9).at(AT as u64));
    }
    let mut chunk = pointing_name(40_000);
    put(&mut chunk, 40_006, &[0xff, 0xff]);
    cases.push(Question::refused("20: a name of 65,535 units", chunk, 9).at(AT as u64));
    cases
}

/// Into free space, its own record, another record, and a record's header.
fn into() -> Vec<Question> {
    let own = record_at(AT, |w| {
        w.element(0x01, |w| {
            // The element ends at 5,024 + 4 + 7 + 4 + 1; 3 bytes follow it.
            w.pointer(5_043);
            w.token(0x03);
        });
        w.put(&[0xcc; 3]);
        w.bare_name("own");
    });
    let repeated = one_record(|w| {
        w.open("Name", |w| {
            w.element(0x01, |w| {
                // The outer element's name: 536 + 4 + 7 + 4.
                w.pointer(551);
                w.token(0x03);
            });
        });
    });
    // A name at the record's own beginning: the magic and the size's low half
    // are unread, and the size's high half is a count of 0.
    let header = pointing_name(AT);
    let mut other = record_at(AT, |w| w.pointing(20_000, &[plain(0x04, [9])]));
    put(&mut other, 19_000, &record(2, &[0; 2_000]));
    place(&mut other, 20_000, |w| {
        w.bare_definition(|w| w.open("D", |w| w.substitution(0x0d, 0)));
    });
    vec![
        Question::text("20: a name behind its own fragment", own, "<own/>").at(AT as u64),
        Question::text("20: the name of the element around", repeated, "<Name><Name/></Name>"),
        Question::refused("20: a name at a record's beginning", header, 8).at(AT as u64),
        Question::text("20: a definition in another record", other, "<D>9</D>").at(AT as u64),
    ]
}

/// A pointer one off the next offset is no inline one: what stands there is
/// read as it is, and nothing is stepped over.
fn one_off() -> Vec<Question> {
    let name = |more: usize| {
        one_record(|w| {
            w.element(0x01, |w| {
                w.pointer(w.here() + 4 + more);
                w.put(&[3][..more]);
                w.bare_name("n");
                w.token(0x03);
            });
        })
    };
    // The pointer leads over one byte, the 03 that ends the element; the
    // element's length then goes on behind it.
    let stepped = one_record(|w| {
        w.put(&[0x01, 0, 0, 5, 0, 0, 0]);
        w.pointer(552);
        w.put(&[3]);
        w.bare_name("n");
    });
    let definition = one_record(|w| {
        w.put(&[0x0c, 0, 0, 0, 0, 0]);
        // 536 + 4 + 10 is 550; the values stand there, 4 bytes, and then the definition.
        w.pointer(554);
        w.values(&[]);
        w.bare_definition(|w| w.empty("d"));
    });
    vec![
        Question::text("20: a name at the next offset", name(0), "<n/>"),
        Question::refused("20: a name one behind is not stepped over", name(1), 8),
        Question::text("20: a name one behind the next offset", stepped, "<n/>"),
        Question::text("20: a definition behind its values", definition, "<d/>"),
    ]
}

/// Pointers count from the chunk's start and not from the record's, nor from
/// its binary XML's: at all three a name stands.
fn from_the_chunk() -> Vec<Question> {
    let mut chunk = pointing_name(20_000);
    for (at, name) in [(20_000, "chunk"), (20_000 + AT, "record"), (20_024 + AT, "body")] {
        place(&mut chunk, at, |w| w.bare_name(name));
    }
    vec![Question::text("20: an offset from the chunk's start", chunk, "<chunk/>").at(AT as u64)]
}

/// Two instances of one definition, with pointed and inline names in it.
fn shared() -> Vec<Question> {
    let mut chunk = one_record(|w| {
        let inner = |w: &mut Writer| w.pointing(30_000, &[plain(0x04, [2])]);
        w.pointing(30_000, &[Value::Fragment(&inner)]);
    });
    place(&mut chunk, 30_000, |w| {
        w.bare_definition(|w| {
            w.open("a", |w| {
                w.element(0x01, |w| {
                    w.pointer(30_200);
                    w.token(0x03);
                });
                w.substitution(0x0d, 0);
            });
        });
    });
    place(&mut chunk, 30_200, |w| w.bare_name("s"));
    vec![Question::text("20: one definition twice", chunk, "<a><s/><a><s/>2</a></a>")]
}

pub fn all() -> Vec<Question> {
    flat([at_the_bounds(), beyond(), into(), one_off(), from_the_chunk(), shared()])
}
