//! The text of sound records, and the lines of the listing.

mod common;

use common::*;
use log_writer::*;
use second_reader::binxml::record_text;
use second_reader::listing::listing;

fn text_of(body: &Writer) -> String {
    text(&chunk_of(body))
}

#[test]
fn elements_without_an_instance() {
    let both = body(|w| {
        w.open("a", |w| {
            w.literal("x<");
            w.empty("b:c");
            w.put(&[0x45, 0x01, 1, 0, b'y', 0]);
        });
        w.put(&[0xaa; 9]);
    });
    assert_eq!(text_of(&both), "<a>x&lt;<b:c/>y</a>");
}

/// The text of an element with one attribute, whose items are given.
fn attribute(values: &[Value], items: impl FnOnce(&mut Writer)) -> String {
    let element = |w: &mut Writer| w.with_attributes("P", |w| w.attribute("a", items));
    text_of(&body(|w| w.instance(element, values)))
}

#[test]
fn attributes_left_out() {
    let null = &[plain(0x00, []), plain(0x01, []), plain(0x00, [1, 2])];
    assert_eq!(attribute(null, |w| w.substitution(0x0e, 0)), "<P/>");
    assert_eq!(attribute(null, |w| w.substitution(0x0e, 2)), "<P/>");
    assert_eq!(attribute(null, |w| w.substitution(0x0d, 0)), "<P a=\"\"/>");
    assert_eq!(attribute(null, |w| w.substitution(0x0e, 1)), "<P a=\"\"/>");
    assert_eq!(attribute(null, |_| ()), "<P a=\"\"/>");
    let twice = |w: &mut Writer| {
        w.substitution(0x0e, 0);
        w.substitution(0x0e, 0);
    };
    assert_eq!(attribute(null, twice), "<P a=\"\"/>");
    let literal_first = |w: &mut Writer| {
        w.literal("");
        w.substitution(0x0e, 0);
    };
    assert_eq!(attribute(null, literal_first), "<P a=\"\"/>");
}

/// A String value of zeros is written as nothing, but is no Null.
#[test]
fn attributes_of_zeros_stay() {
    for zeros in [2, 4, 62_000] {
        let string = &[plain(0x01, vec![0; zeros]), plain(0x00, [])];
        assert_eq!(attribute(string, |w| w.substitution(0x0e, 0)), "<P a=\"\"/>");
        assert_eq!(attribute(string, |w| w.substitution(0x0d, 0)), "<P a=\"\"/>");
        let and_null = |w: &mut Writer| {
            w.substitution(0x0e, 0);
            w.substitution(0x0e, 1);
        };
        assert_eq!(attribute(string, and_null), "<P a=\"\"/>");
    }
}

#[test]
fn closing_zeros_by_where_a_string_stands() {
    let string = &[plain(0x01, utf16("\0Halle\0\0")), plain(0x01, utf16("West\0"))];
    for token in [0x0d, 0x0e] {
        let element = |w: &mut Writer| w.open("P", |w| w.substitution(token, 0));
        let made = body(|w| w.instance(element, string));
        assert_eq!(text_of(&made), "<P>\u{FFFD}Halle</P>");
        let shown = attribute(string, |w| w.substitution(token, 0));
        assert_eq!(shown, "<P a=\"\u{FFFD}Halle\"/>");
        let two = |w: &mut Writer| {
            w.substitution(token, 1);
            w.substitution(token, 0);
        };
        assert_eq!(attribute(string, two), "<P a=\"West\u{FFFD}Halle\"/>");
    }
    let literal_between = |w: &mut Writer| {
        w.substitution(0x0d, 1);
        w.literal("-\0\0");
        w.substitution(0x0d, 1);
    };
    assert_eq!(attribute(string, literal_between), "<P a=\"West-\u{FFFD}\u{FFFD}West\"/>");
}

#[test]
fn literals_keep_their_closing_zeros() {
    for token in [0x05, 0x45] {
        let literal = [token, 0x01, 3, 0, 0x41, 0, 0, 0, 0, 0];
        let element = body(|w| w.open("P", |w| w.put(&literal)));
        assert_eq!(text_of(&element), "<P>A\u{FFFD}\u{FFFD}</P>");
        assert_eq!(attribute(&[], |w| w.put(&literal)), "<P a=\"A\u{FFFD}\u{FFFD}\"/>");
    }
}

/// An odd size is refused before anything is dropped, at the descriptor's size.
#[test]
fn odd_sizes_of_zeros() {
    for size in [1, 3, 62_001] {
        let element = |w: &mut Writer| w.open("P", |w| w.substitution(0x0e, 0));
        let mut written = writer_at(BODY);
        written.stream_header();
        written.instance(element, &[plain(0x01, vec![0; size])]);
        let place = BODY as u64 + written.bytes.len() as u64 - size as u64 - 4;
        assert_eq!(refusal(&chunk_of(&written)), (11, place));
    }
}

#[test]
fn several_attributes_of_one_name() {
    let several = |w: &mut Writer| {
        w.put(&[0x46]);
        w.name("a");
        w.literal("1");
        w.substitution(0x0d, 0);
        w.put(&[0x06]);
        w.name("b");
        w.substitution(0x0e, 1);
        w.put(&[0x46]);
        w.name("a");
        w.literal("\"");
    };
    let element = |w: &mut Writer| {
        w.element(0x41, |w| {
            w.name("P");
            w.counted(several);
            w.items(|w| w.substitution(0x0e, 1));
        });
    };
    let made = body(|w| w.instance(element, &[plain(0x04, [7]), plain(0x00, [])]));
    assert_eq!(text_of(&made), "<P a=\"17\" a=\"&quot;\"></P>");
}

#[test]
fn a_left_out_attribute_needs_no_room() {
    let element = |w: &mut Writer| {
        w.with_attributes("P", |w| w.attribute("a.long.name", |w| w.substitution(0x0e, 0)));
    };
    let chunk = chunk_of(&body(|w| w.instance(element, &[plain(0x00, [])])));
    assert_eq!(record_text(&chunk, 512, 4).unwrap(), b"<P/>");
    assert_eq!(record_text(&chunk, 512, 3).unwrap_err().number, 13);
}

#[test]
fn pairs_split_over_two_items() {
    let made = body(|w| {
        w.open("P", |w| {
            w.units(&[0xd800]);
            w.units(&[0xdc00]);
        });
    });
    assert_eq!(text_of(&made), "<P>\u{FFFD}\u{FFFD}</P>");
}

/// A record whose definition shows values 0 and 1 in an element; value 0 is
/// the BinXml fragment that `inside` writes.
fn nested(inside: &dyn Fn(&mut Writer)) -> Writer {
    let element = |w: &mut Writer| {
        w.open("O", |w| {
            w.substitution(0x0d, 0);
            w.substitution(0x0e, 1);
        });
    };
    body(|w| w.instance(element, &[Value::Fragment(inside), plain(BIN_XML, [])]))
}

#[test]
fn fragments_in_values() {
    let bare = nested(&|w| {
        w.open("i", |w| w.empty("j"));
        w.put(&[0x77]);
    });
    assert_eq!(text_of(&bare), "<O><i><j/></i></O>");
    let instance = nested(&|w| {
        w.instance(|w| w.open("i", |w| w.substitution(0x0d, 0)), &[plain(0x08, [5, 0, 0, 0])]);
    });
    assert_eq!(text_of(&instance), "<O><i>5</i></O>");
}

#[test]
fn names_and_definitions_elsewhere() {
    let mut free = writer_at(40_000);
    free.bare_name("far");
    let definition_at = free.here();
    free.bare_definition(|w| {
        w.element(0x01, |w| {
            w.pointer(40_000);
            w.items(|w| w.substitution(0x0d, 0));
        });
    });
    let mut chunk = chunk_of(&body(|w| w.pointing(definition_at, &[plain(0x04, [9])])));
    put(&mut chunk, 40_000, &free.bytes);
    assert_eq!(record_text(&chunk, 512, 65_536).unwrap(), b"<far>9</far>");
}

#[test]
fn listing_of_short_and_refused_files() {
    assert_eq!(listing(&[]), b"header refused 1\n");
    assert_eq!(listing(&[0; 4_095]), b"header refused 1\n");
    assert_eq!(listing(&[0; 4_096]), b"header refused 2\n");
    assert_eq!(listing(&[0; 4_097]), b"header refused 2\nrest 1\n");
    assert_eq!(listing(&sound_file_header()), b"header ok\n");
}

#[test]
fn records_beyond_the_free_space() {
    let first = record(u64::MAX, &body(|w| w.open("P", |_| ())).bytes);
    let second_at = 512 + first.len();
    let mut chunk = chunk_with(512, &[first, record(5, &[])].concat());
    let file = |chunk: &[u8]| [&[0; 4_096][..], chunk, chunk].concat();
    seal_chunk(&mut chunk, second_at + 28);
    let whole = "512 18446744073709551615 <P></P>\n";
    let later = format!("{second_at} 5 refused 8\n");
    let expected =
        format!("header refused 2\nchunk 0 ok\n{whole}{later}chunk 1 ok\n{whole}{later}");
    assert_eq!(listing(&file(&chunk)), expected.as_bytes());
    seal_chunk(&mut chunk, second_at + 27);
    let expected = format!("header refused 2\nchunk 0 ok\n{whole}chunk 1 ok\n{whole}");
    assert_eq!(listing(&file(&chunk)), expected.as_bytes());
    chunk[530] ^= 1;
    let expected = format!(
        "header refused 2\nchunk 0 refused 6\n{whole}{later}chunk 1 refused 6\n{whole}{later}"
    );
    assert_eq!(listing(&file(&chunk)), expected.as_bytes());
}

#[test]
fn texts_longer_than_the_listing_room() {
    let element = |w: &mut Writer| {
        w.open("P", |w| {
            w.substitution(0x0d, 0);
            w.substitution(0x0d, 0);
        });
    };
    let with = |size: usize| body(|w| w.instance(element, &[plain(0x0e, vec![1; size])]));
    let chunk = chunk_of(&with(16_382));
    assert_eq!(record_text(&chunk, 512, 65_536).unwrap().len(), 65_535);
    let chunk = chunk_of(&with(16_383));
    assert_eq!(record_text(&chunk, 512, 65_536).unwrap_err().number, 13);
    let shown = String::from_utf8(listing(&[vec![0; 4_096], chunk].concat())).unwrap();
    assert!(shown.ends_with("\n512 1 refused 13\n"));
}

/// 7 bytes of tags and 21,843 characters of three bytes fill the room.
#[test]
fn a_closing_zero_needs_no_room() {
    let with = |last: u16| {
        let string = plain(0x01, u16s(&[&[0x20ac; 21_843], &[last][..]].concat()));
        chunk_of(&body(|w| w.instance(|w| w.open("P", |w| w.substitution(0x0d, 0)), &[string])))
    };
    assert_eq!(record_text(&with(0), 512, 65_536).unwrap().len(), 65_536);
    assert_eq!(record_text(&with(0), 512, 65_535).unwrap_err().number, 13);
    assert_eq!(record_text(&with(0x41), 512, 65_536).unwrap_err().number, 13);
}
