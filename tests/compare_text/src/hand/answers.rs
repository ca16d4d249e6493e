//! Offsets at which no record stands, records that no search lists, long
//! texts, and what is tested though it is not written.

use super::examples::{first, shown};
use super::flat;
use crate::question::Question;
use log_writer::*;

fn offsets() -> Vec<Question> {
    let far = [u64::MAX, u64::MAX - 27, u64::MAX - 28, u64::MAX - 511, 1 << 63, (1 << 63) + 512];
    let cut = [(1 << 16) + 512, (1 << 31) + 512, (1 << 32) + 512];
    let near = [0, 128, 511, 513, 536, 621, 622, 65_508, 65_509, 65_535, 65_536, 65_537];
    let ask = |name: &str, offsets: &[u64]| Question {
        offsets: offsets.to_vec(),
        ..Question::refused(name, first(), 7)
    };
    vec![
        ask("1: offsets near 2^64", &far),
        ask("1: offsets that would be cut", &cut),
        ask("1: offsets beside the record", &near),
    ]
}

fn lengths() -> Vec<Question> {
    let cut = |length: usize| first()[..length].to_vec();
    let longer = [first(), vec![0]].concat();
    let everywhere = |question: Question| Question { offsets: vec![0, 512, u64::MAX], ..question };
    vec![
        everywhere(Question::refused("a chunk without its last byte", cut(65_535), 1)).behind(&[0]),
        everywhere(Question::refused("a chunk with a byte too many", longer, 1)),
        everywhere(Question::refused("a chunk of one record's end", cut(622), 1)),
        everywhere(Question::refused("a chunk of no bytes", Vec::new(), 1)).behind(&first()),
    ]
}

/// A record inside another: the search does not list it, but it is whole.
fn not_listed() -> Vec<Question> {
    let mut inner = record_at(600, |w| w.open("In", |w| w.literal("x")));
    let size = inner[604] as usize;
    frame(&mut inner, 512, 88 + size + 4);
    let outer = Question::refused("3: the record around it", inner.clone(), 8);
    vec![Question::text("3: a record that no search lists", inner, "<In>x</In>").at(600), outer]
}

/// Whole records below 512: one that ends there, and one that reaches out.
fn below() -> Vec<Question> {
    let mut chunk = first();
    put(&mut chunk, 400, &record(1, &[]));
    put(&mut chunk, 484, &record(1, &[]));
    let out = record_at(511, |w| w.empty("P"));
    vec![
        Question { offsets: vec![400, 484], ..Question::refused("4: below 512", chunk, 7) },
        Question::refused("4: a record at 511", out, 7).at(511),
        Question::text("4: a record at 512", record_at(512, |w| w.empty("P")), "<P/>"),
        Question::text("4: a record at 513", record_at(513, |w| w.empty("P")), "<P/>").at(513),
        Question::text("a record at an odd offset", record_at(9_999, |w| w.empty("P")), "<P/>")
            .at(9_999),
    ]
}

/// Where a record's sizes are at their bounds, or disagree.
fn sizes() -> Vec<Question> {
    let large = |size: usize| {
        let mut chunk = one_record(|w| w.empty("P"));
        frame(&mut chunk, 512, size);
        chunk
    };
    let mut disagreeing = first();
    put(&mut disagreeing, 618, &[111]);
    // 28 bytes of record, 28 of binary XML.
    let last = record_at(65_480, |w| w.empty("P"));
    vec![
        Question::text("the largest record", large(65_024), "<P/>"),
        Question::refused("sizes that disagree", disagreeing, 7),
        Question::text("a record at the chunk's end", last, "<P/>").at(65_480),
    ]
}

/// `outer` times `inner` times a string of quotation marks, each of which is
/// written as six bytes.
fn quotation_marks(outer: usize, inner: usize, units: usize) -> Vec<u8> {
    let string = utf16(&"\"".repeat(units));
    let mut chunk = one_record(|w| {
        let value = |w: &mut Writer| w.pointing(50_000, &[plain(0x01, string.clone())]);
        w.pointing(40_000, &[Value::Fragment(&value)]);
    });
    for (at, times) in [(40_000, outer), (50_000, inner)] {
        place(&mut chunk, at, |w| {
            w.bare_definition(|w| {
                w.open("e", |w| (0..times).for_each(|_| w.substitution(0x0d, 0)))
            });
        });
    }
    chunk
}

/// 7 + 30 * (7 + 25 * 1,000 * 6) bytes.
fn long_texts() -> Vec<Question> {
    let name = "6: a text of 4,500,217 bytes";
    vec![Question::long(name, quotation_marks(30, 25, 1_000), 4_500_217)]
}

/// 7 + 47 * (7 + 1,200 * 12,692 * 6) bytes, that is, 2^32 + 5,840: cut to 32
/// bits, its length would fit the room.
pub fn longest() -> Vec<Question> {
    let name = "6: a text of 4,294,973,136 bytes";
    vec![Question::long(name, quotation_marks(47, 1_200, 12_692), 4_294_973_136)]
}

/// An element with attribute a, of what `name` writes, left out, and then b.
fn left_out(name: impl Fn(&mut Writer), b: usize) -> Vec<u8> {
    one_record(|w| {
        let attributes = |w: &mut Writer| {
            w.token(0x06);
            name(w);
            w.substitution(0x0e, 0);
            w.attribute("b", |w| w.substitution(0x0e, b));
        };
        let values = [plain(0x00, [1, 2, 3]), plain(0x04, [1, 2]), plain(0x04, [9])];
        w.instance(|w| w.with_attributes("P", attributes), &values);
    })
}

fn tested_all_the_same() -> Vec<Question> {
    let good = |w: &mut Writer| w.name("a");
    let far = |w: &mut Writer| w.pointer(65_530);
    vec![
        Question::text("7: a left-out attribute", left_out(good, 2), "<P b=\"9\"/>"),
        Question::text("7: both left out", left_out(good, 0), "<P/>"),
        Question::refused("7: a left-out attribute's name", left_out(|w| w.name("a b"), 2), 8),
        Question::refused("7: a left-out attribute's pointer", left_out(far, 2), 9),
        Question::refused("7: a value after a left-out one", left_out(good, 1), 11),
        Question::refused("7: a number after a left-out one", left_out(good, 3), 10),
    ]
}

fn empty_fragments() -> Vec<Question> {
    let attribute = |token: u8| {
        one_record(|w| {
            let element = |w: &mut Writer| {
                w.with_attributes("P", |w| w.attribute("a", |w| w.substitution(token, 0)));
            };
            w.instance(element, &[plain(0x21, [])]);
        })
    };
    vec![
        Question::text("9: BinXml of size 0", shown(0x21, &[]), "<P></P>"),
        Question::refused("9: BinXml of size 1", shown(0x21, &[0x0f]), 8),
        Question::refused("9: BinXml of size 0 in an attribute", attribute(0x0d), 11),
        Question::refused("9: BinXml of size 0 in an attribute, optional", attribute(0x0e), 11),
    ]
}

pub fn all() -> Vec<Question> {
    flat([
        offsets(),
        lengths(),
        not_listed(),
        below(),
        sizes(),
        long_texts(),
        tested_all_the_same(),
        empty_fragments(),
    ])
}
