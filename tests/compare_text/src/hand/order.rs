//! Which test comes first where several would fail.

use super::examples::{first_with, shown};
use super::flat;
use crate::question::Question;
use log_writer::*;

/// A definition whose element P ends, by its own length, with `last`; value 0
/// is sound, value 1 is an Int16 of one byte.
fn ending_with(last: &[u8]) -> Vec<u8> {
    one_record(|w| {
        let element = |w: &mut Writer| {
            w.element(0x01, |w| {
                w.name("P");
                w.put(last);
            });
        };
        w.instance(element, &[plain(0x04, [1]), plain(0x05, [1])]);
    })
}

fn refused(name: &str, last: &[u8], number: u32) -> Question {
    Question::refused(name, ending_with(last), number)
}

fn substitutions() -> Vec<Question> {
    vec![
        Question::text("12: sound", ending_with(&[2, 0x0d, 0, 0, 9, 4]), "<P>1</P>"),
        refused("12: a wrong number and no unread byte", &[2, 0x0d, 2, 0], 10),
        refused("12: a wrong number in its high byte", &[2, 0x0d, 0, 1], 10),
        refused("12: half a number", &[2, 0x0d, 2], 8),
        refused("12: no number", &[2, 0x0e], 8),
        refused("12: no unread byte", &[2, 0x0d, 0, 0], 8),
        refused("12: no unread byte before a wrong value", &[2, 0x0d, 1, 0], 8),
        refused("12: a wrong value and its unread byte", &[2, 0x0d, 1, 0, 9], 11),
        refused("12: nothing after a sound one", &[2, 0x0d, 0, 0, 9], 8),
    ]
}

fn literals() -> Vec<Question> {
    vec![
        refused("13: another type and no count", &[2, 0x05, 0x02], 11),
        refused("13: another type and half a count", &[2, 0x45, 0x00, 1], 11),
        refused("13: another type and all else", &[2, 0x05, 0x08, 0, 0, 4], 11),
        refused("13: no type", &[2, 0x05], 8),
        refused("13: no count", &[2, 0x05, 0x01], 8),
        refused("13: half a count", &[2, 0x05, 0x01, 0], 8),
        refused("13: a unit that is missing", &[2, 0x05, 0x01, 1, 0], 8),
        refused("13: half a unit", &[2, 0x05, 0x01, 1, 0, 0x41], 8),
        refused("13: no token after a literal", &[2, 0x05, 0x01, 1, 0, 0x41, 0], 8),
        refused("13: the greatest count", &[2, 0x05, 0x01, 0xff, 0xff, 0x41, 0, 4], 8),
    ]
}

fn values_at_once() -> Vec<Question> {
    vec![
        refused("14: a wrong value before an unknown token", &[2, 0x0d, 1, 0, 9, 0x99], 11),
        refused("14: an unknown token before a wrong value", &[2, 0x99, 0x0d, 1, 0, 9, 4], 8),
        refused("14: a wrong value, a wrong number", &[2, 0x0d, 1, 0, 9, 0x0d, 7, 0, 9, 4], 11),
        refused("14: a wrong number, a wrong value", &[2, 0x0d, 7, 0, 9, 0x0d, 1, 0, 9, 4], 10),
    ]
}

/// A record that points to what stands at the chunk's end.
fn pointed(target: usize, thing: &[u8], as_definition: bool) -> Vec<u8> {
    let mut chunk = one_record(|w| {
        if as_definition {
            w.pointing(target, &[]);
        } else {
            w.element(0x01, |w| {
                w.pointer(target);
                w.token(0x03);
            });
        }
    });
    chunk[65_536 - thing.len()..].copy_from_slice(thing);
    chunk
}

/// Names of no unit, and definitions of wrong data, at the chunk's end.
fn fits() -> Vec<Question> {
    let name = |target| pointed(target, &[0; 10], false);
    let definition = |size: u8| {
        let fixed = [&[0; 20][..], &[size, 0, 0, 0], &[0xff]].concat();
        pointed(65_511, &fixed, true)
    };
    let long = first_with(&[(570, &[45]), (574, &[0xff])]);
    let last = pointed(65_512, &[0; 24], true);
    vec![
        Question::refused("15: a name of count 0 that ends beyond", name(65_527), 9).behind(&[0]),
        Question::refused("15: a name of count 0 that fits", name(65_526), 8),
        Question::refused("15: a definition's size ends beyond", definition(2), 9).behind(&[0]),
        Question::refused("15: a definition that fits", definition(1), 8),
        Question::refused("15: a definition of no data", last, 8),
        Question::refused("15: an inline definition too long and wrong", long, 8),
        // The size is larger than a chunk and more than 16 and 31 bits.
        Question::refused("15: the greatest size", first_with(&[(570, &[0xff; 4])]), 8),
        Question::refused("15: a size of 2^31", first_with(&[(573, &[0x80])]), 8),
    ]
}

/// The record of a pointing instance, cut after `kept` bytes of what follows
/// the definition's pointer.
fn cut_values(values: &[u8], kept: usize) -> Vec<u8> {
    let mut chunk = one_record(|w| {
        w.put(&[0x0c, 0, 0, 0, 0, 0]);
        w.pointer(40_000);
        w.put(&values[..kept]);
    });
    // Values that are missing are taken for substitutions of no value, if the
    // definition is read before them.
    place(&mut chunk, 40_000, |w| {
        w.bare_definition(|w| w.open("P", |w| w.substitution(0x0d, 3)));
    });
    chunk
}

fn instances() -> Vec<Question> {
    let mut cases = Vec::new();
    let values = [2, 0, 0, 0, 1, 0, 4, 0, 2, 0, 6, 0, 7, 8, 9];
    for kept in 0..values.len() {
        let name = format!("16: values cut to {kept} bytes");
        cases.push(Question::refused(name, cut_values(&values, kept), 8));
    }
    let whole = cut_values(&values, values.len());
    let many: &[u8] = &[1, 1, 0, 0];
    let below: &[u8] = &[0xff, 1, 0, 0];
    let wrong: &[u8] = &[0xff];
    cases.extend([
        Question::refused("16: values that fit, and their number", whole, 10),
        Question::refused(
            "16: 257 values and wrong content",
            first_with(&[(608, many), (574, wrong)]),
            12,
        ),
        Question::refused(
            "16: a pointer of 511 and 257 values",
            first_with(&[(546, below), (550, many)]),
            9,
        ),
        Question::refused(
            "16: a value too long and wrong content",
            first_with(&[(612, &[3]), (578, wrong)]),
            8,
        ),
        Question::refused(
            "16: a value too long and a wrong number",
            first_with(&[(612, &[3]), (603, wrong)]),
            8,
        ),
    ]);
    cases
}

fn wrong_in_every_way() -> Vec<Question> {
    vec![
        Question::refused("18: an unknown type", shown(0x02, &[1, 2, 3]), 11),
        Question::refused("18: an array type", shown(0x81, &[0x41, 0, 0, 0]), 11),
        Question::refused("18: a FileTime of 7 bytes", shown(0x11, &[0xff; 7]), 11),
        Question::refused("18: a Sid of 9 bytes", shown(0x13, &[0xff; 9]), 11),
        Question::refused("18: a SysTime of zeros", shown(0x12, &[0; 16]), 11),
    ]
}

pub fn all() -> Vec<Question> {
    flat([substitutions(), literals(), values_at_once(), fits(), instances(), wrong_in_every_way()])
}
