//! Refused texts of elements, attributes, names and items: the number and the
//! place, and which test comes first where several would fail.

mod common;

use common::*;
use log_writer::*;
use second_reader::binxml::record_text;

/// `<P a="x">y</P>` without an instance: element 540, length 543, name
/// pointer 547, name 551, unit count 557, unit 559, list length 563,
/// attribute 567, name pointer 568, name 572, unit count 578, unit 580,
/// literal 584, its type 585, count 586, unit 588, 02 590, literal 591,
/// 04 597, end 598.
fn example() -> Vec<u8> {
    let made = body(|w| {
        w.element(0x41, |w| {
            w.name("P");
            w.counted(|w| w.attribute("a", |w| w.literal("x")));
            w.items(|w| w.literal("y"));
        });
    });
    assert_eq!(made.here(), 598);
    let chunk = chunk_of(&made);
    assert_eq!(text(&chunk), "<P a=\"x\">y</P>");
    chunk
}

fn with_byte(at: usize, byte: u8) -> (u32, u64) {
    let mut chunk = example();
    chunk[at] = byte;
    refusal(&chunk)
}

fn with_u32(at: usize, number: u32) -> (u32, u64) {
    let mut chunk = example();
    put_u32(&mut chunk, at, number);
    refusal(&chunk)
}

#[test]
fn element_lengths() {
    let sound = 598 - 547;
    assert_eq!(with_u32(543, sound + 1), (8, 543));
    assert_eq!(with_u32(543, u32::MAX), (8, 543));
    // Too short for the name pointer, the name's fixed part, the whole name.
    assert_eq!(with_u32(543, 0), (8, 547));
    assert_eq!(with_u32(543, 3), (8, 550));
    assert_eq!(with_u32(543, 4), (8, 551));
    assert_eq!(with_u32(543, 11), (8, 558));
    assert_eq!(with_u32(543, 12), (8, 557));
    assert_eq!(with_u32(543, 15), (8, 557));
    // Too short for the list length, the list, 02, the items, 04.
    assert_eq!(with_u32(543, 16), (8, 563));
    assert_eq!(with_u32(543, 19), (8, 566));
    assert_eq!(with_u32(543, 20), (8, 563));
    assert_eq!(with_u32(543, 42), (8, 563));
    assert_eq!(with_u32(543, 43), (8, 590));
    assert_eq!(with_u32(543, 44), (8, 591));
    assert_eq!(with_u32(543, 45), (8, 592));
    assert_eq!(with_u32(543, 46), (8, 593));
    assert_eq!(with_u32(543, 49), (8, 593));
    assert_eq!(with_u32(543, 50), (8, 597));
}

#[test]
fn elements_cut_short() {
    let cut = |kept: usize| {
        let body = example()[536..536 + kept].to_vec();
        refusal(&chunk_with(512, &record(1, &body)))
    };
    for kept in 4..11 {
        assert_eq!(cut(kept), (8, 536 + kept as u64));
    }
    assert_eq!(cut(11), (8, 543));
}

#[test]
fn closing_tokens_that_are_not_last() {
    let longer = |token: &[u8]| {
        let made = body(|w| {
            w.element(0x01, |w| {
                w.name("P");
                w.put(token);
                w.put(&[0x00]);
            });
        });
        refusal(&chunk_of(&made))
    };
    assert_eq!(longer(&[0x03]), (8, 563));
    assert_eq!(longer(&[0x02, 0x04]), (8, 564));
}

#[test]
fn tokens_where_they_are_not_allowed() {
    for token in [0x00, 0x01, 0x04, 0x06, 0x0c, 0x42, 0x43, 0xff] {
        assert_eq!(with_byte(590, token), (8, 590));
    }
    for token in [0x00, 0x02, 0x03, 0x06, 0x07, 0x0b, 0x0c, 0x0f, 0x46, 0x4d, 0x4e, 0xff] {
        assert_eq!(with_byte(591, token), (8, 591));
    }
    for token in [0x00, 0x01, 0x02, 0x05, 0x0d, 0x41, 0x86, 0xff] {
        assert_eq!(with_byte(567, token), (8, 567));
    }
    for token in [0x00, 0x01, 0x02, 0x04, 0x41, 0x4d, 0xff] {
        assert_eq!(with_byte(584, token), (8, 584));
    }
    // In an attribute's place 06 begins another attribute.
    assert_eq!(with_byte(584, 0x06).0, 9);
}

#[test]
fn attribute_lists() {
    assert_eq!(with_u32(563, 0), (8, 567));
    assert_eq!(with_u32(563, 32), (8, 563));
    // A list that fits its element but reaches over the 02, where an attribute
    // or item is due.
    assert_eq!(with_u32(563, 31), (8, 590));
    assert_eq!(with_u32(563, 24), (8, 590));
    assert_eq!(with_u32(563, u32::MAX), (8, 563));
    // Too short for the name pointer, the name, the literal's fields.
    assert_eq!(with_u32(563, 1), (8, 568));
    assert_eq!(with_u32(563, 4), (8, 571));
    assert_eq!(with_u32(563, 5), (8, 572));
    assert_eq!(with_u32(563, 12), (8, 579));
    assert_eq!(with_u32(563, 13), (8, 578));
    assert_eq!(with_u32(563, 16), (8, 578));
    assert_eq!(with_u32(563, 18), (8, 585));
    assert_eq!(with_u32(563, 19), (8, 586));
    assert_eq!(with_u32(563, 20), (8, 587));
    assert_eq!(with_u32(563, 21), (8, 586));
    assert_eq!(with_u32(563, 22), (8, 586));
    // A list that ends after the name leaves 05 where 02 or 03 is due.
    assert_eq!(with_u32(563, 17), (8, 584));
}

#[test]
fn names() {
    // No unit: then the end bytes are the unit, and that is wrong too.
    assert_eq!(with_byte(557, 0), (8, 559));
    assert_eq!(with_byte(578, 0), (8, 580));
    for unit in [0, b' ', b'-', b'.', b'0', b'9', b'@', b'[', b'`', b'{', 0xaa] {
        assert_eq!(with_byte(559, unit), (8, 559));
        assert_eq!(with_byte(580, unit), (8, 580));
    }
    for at in [560, 561, 562] {
        assert_eq!(with_byte(at, 1), (8, 559));
    }
    for unit in [b'A', b'Z', b'a', b'z', b'_', b':'] {
        let mut chunk = example();
        chunk[559] = unit;
        assert!(text(&chunk).starts_with(&format!("<{} ", char::from(unit))));
    }
}

#[test]
fn later_units_of_a_name() {
    let with_name = |name: &str| {
        let made = body(|w| w.open(name, |_| ()));
        record_text(&chunk_of(&made), 512, 99).map_err(|refusal| (refusal.number, refusal.place))
    };
    assert_eq!(with_name("a-._:09Zz").unwrap(), b"<a-._:09Zz></a-._:09Zz>");
    for name in ["a b", "a/b", "a@", "a\u{7f}", "a["] {
        assert_eq!(with_name(name), Err((8, 559)));
    }
}

#[test]
fn pointers_to_names() {
    for pointer in [0, 511, 65_529, 65_536, u32::MAX] {
        assert_eq!(with_u32(547, pointer), (9, 547));
        assert_eq!(with_u32(568, pointer), (9, 568));
    }
    // The fixed part fits at the chunk's end, the end bytes do not: 9 before
    // anything is said of the name, though its count is 0.
    for pointer in 65_527..=65_528 {
        assert_eq!(with_u32(547, pointer), (9, 547));
    }
    // A name without units that fits: pointed to, so the place is far away.
    assert_eq!(with_u32(547, 65_526), (8, 65_534));
    assert_eq!(with_u32(547, 40_000), (8, 40_008));
}

#[test]
fn a_name_pointed_to_is_not_stepped_over() {
    let mut chunk = example();
    // The element takes the attribute's name; its own name's bytes stay and
    // are then read as the list length, 0.
    put_u32(&mut chunk, 547, 572);
    assert_eq!(refusal(&chunk), (8, 555));
}

#[test]
fn literals() {
    for kind in [0x00, 0x02, 0x05, 0x81] {
        assert_eq!(with_byte(592, kind), (11, 592));
        assert_eq!(with_byte(585, kind), (11, 585));
    }
    assert_eq!(with_byte(593, 3), (8, 593));
    assert_eq!(with_byte(586, 2), (8, 586));
    // It takes the 04 and what follows is due.
    let made = body(|w| {
        w.element(0x01, |w| {
            w.name("P");
            w.put(&[0x02, 0x05, 0x01, 1, 0, 0x41, 0x00]);
        });
    });
    assert_eq!(refusal(&chunk_of(&made)), (8, made.here() as u64));
    // The type is tested before a count that is cut short.
    let made = body(|w| {
        w.element(0x01, |w| {
            w.name("P");
            w.put(&[0x02, 0x05, 0x02]);
        });
    });
    assert_eq!(refusal(&chunk_of(&made)), (11, made.here() as u64 - 1));
}

/// An element whose content is 02 and the given bytes, with one wrong value.
fn with_items(items: &[u8], kind: u8) -> (u32, u64, u64) {
    let mut end = 0;
    let element = |w: &mut Writer| {
        w.element(0x01, |w| {
            w.name("P");
            w.put(&[0x02]);
            w.put(items);
            end = w.here() as u64;
        });
    };
    let made = body(|w| w.instance(element, &[plain(kind, [0])]));
    let (number, place) = refusal(&chunk_of(&made));
    (number, place, end)
}

#[test]
fn substitutions() {
    let (number, place, end) = with_items(&[0x0d], 0);
    assert_eq!((number, place), (8, end));
    let (number, place, end) = with_items(&[0x0d, 0], 0);
    assert_eq!((number, place), (8, end));
    // The number comes before the missing byte, and that before the value.
    let (number, place, end) = with_items(&[0x0e, 1, 0], 0x05);
    assert_eq!((number, place), (10, end - 2));
    let (number, place, end) = with_items(&[0x0e, 0, 0], 0x05);
    assert_eq!((number, place), (8, end));
    // The value comes before the token that follows.
    let (number, ..) = with_items(&[0x0e, 0, 0, 0, 0xff], 0x05);
    assert_eq!(number, 11);
    let (number, place, end) = with_items(&[0x0e, 0, 0, 0, 0xff], 0x00);
    assert_eq!((number, place), (8, end - 1));
    let (number, place, end) = with_items(&[0x0d, 0, 1, 0, 0x04], 0x00);
    assert_eq!((number, place), (10, end - 4));
}

#[test]
fn a_fragment_without_an_instance_has_no_values() {
    for token in [0x0d, 0x0e] {
        let mut place = 0;
        let made = body(|w| {
            w.open("P", |w| {
                place = w.here() as u64 + 1;
                w.substitution(token, 0);
            });
        });
        assert_eq!(refusal(&chunk_of(&made)), (10, place));
    }
}

#[test]
fn inner_elements_stay_inside_outer_ones() {
    let mut inner_length = 0;
    let made = body(|w| {
        w.open("O", |w| {
            inner_length = w.here() + 3;
            w.empty("i");
        });
        w.put(&[0; 20]);
    });
    let mut chunk = chunk_of(&made);
    assert_eq!(text(&chunk), "<O><i/></O>");
    // One byte more takes the outer 04; two leave the outer element.
    put_u32(&mut chunk, inner_length, 18);
    assert_eq!(refusal(&chunk).1, inner_length as u64 + 4 + 16);
    put_u32(&mut chunk, inner_length, 19);
    assert_eq!(refusal(&chunk), (8, inner_length as u64));
}
