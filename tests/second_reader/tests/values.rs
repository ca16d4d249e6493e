//! Every row of the type table: the text, the sizes, and the content.

use log_writer::{u16s, utf16};
use second_reader::text::escaped;
use second_reader::value::{value_text, Cause};

fn ok(kind: u8, bytes: &[u8], text: &str) {
    assert_eq!(value_text(kind, bytes).as_deref(), Ok(text), "type {kind:#04x}");
}

fn wrong(kind: u8, bytes: &[u8], cause: Cause) {
    assert_eq!(value_text(kind, bytes), Err(cause), "type {kind:#04x}");
}

#[test]
fn types_outside_the_table() {
    for kind in 0..=255u8 {
        let known = matches!(kind, 0x00 | 0x01 | 0x03..=0x15);
        let unsupported = value_text(kind, &[]) == Err(Cause::Type);
        assert_eq!(unsupported, !known, "type {kind:#04x}");
    }
}

#[test]
fn sizes() {
    let fixed: [(usize, &[u8]); 5] = [
        (1, &[0x03, 0x04]),
        (2, &[0x05, 0x06]),
        (4, &[0x07, 0x08, 0x0b, 0x0d, 0x14]),
        (8, &[0x09, 0x0a, 0x0c, 0x11, 0x15]),
        (16, &[0x0f, 0x12]),
    ];
    let refused = |kind: u8, given: usize| value_text(kind, &vec![0; given]) == Err(Cause::Size);
    for given in 0..40 {
        for (size, kinds) in fixed {
            for kind in kinds {
                assert_eq!(refused(*kind, given), given != size, "type {kind:#04x}, size {given}");
            }
        }
        assert_eq!(refused(0x10, given), given != 4 && given != 8);
        assert_eq!(refused(0x01, given), given % 2 == 1);
    }
}

#[test]
fn null_and_string() {
    ok(0x00, &[], "");
    ok(0x00, &[1, 2, 3], "");
    ok(0x01, &[], "");
    ok(0x01, &utf16("Brücke\0"), "Brücke");
}

/// The text of a String value of the given units.
fn string(units: &[u16]) -> String {
    value_text(0x01, &u16s(units)).expect("an even size")
}

/// Zero bytes, and an A with zero bytes after it, of the first sizes.
#[test]
fn sizes_of_strings() {
    for size in [0, 2, 4] {
        ok(0x01, &vec![0; size], "");
    }
    for size in [1, 3, 65_535] {
        wrong(0x01, &vec![0; size], Cause::Size);
    }
    ok(0x01, &[0x41, 0], "A");
    ok(0x01, &[0x41, 0, 0, 0], "A");
    wrong(0x01, &[0x41], Cause::Size);
    wrong(0x01, &[0x41, 0, 0], Cause::Size);
}

#[test]
fn closing_zeros_of_strings() {
    assert_eq!(string(&[0]), "");
    assert_eq!(string(&[0, 0]), "");
    assert_eq!(string(&[0; 32_767]), "");
    assert_eq!(string(&[0x41, 0]), "A");
    assert_eq!(string(&[0x41, 0x42, 0, 0, 0]), "AB");
    let mut longest = [0; 32_767];
    longest[0] = 0x41;
    assert_eq!(string(&longest), "A");
    longest[32_766] = 0x42;
    assert_eq!(string(&longest), format!("A{}B", "\u{FFFD}".repeat(32_765)));
}

/// Units are dropped, not bytes: one with a zero in either half stays.
#[test]
fn halves_of_units_that_are_zero() {
    ok(0x01, &[0x41, 0, 0, 0], "A");
    ok(0x01, &[0, 0x41, 0, 0], "\u{4100}");
    ok(0x01, &[0, 0x41], "\u{4100}");
    ok(0x01, &[0x41, 0, 0, 0x41, 0, 0], "A\u{4100}");
    ok(0x01, &[0, 0, 0, 0x41], "\u{FFFD}\u{4100}");
    ok(0x01, &[0, 0, 0x41, 0], "\u{FFFD}A");
}

#[test]
fn zeros_before_the_last_unit_stay() {
    assert_eq!(string(&[0, 0x41]), "\u{FFFD}A");
    assert_eq!(string(&[0x41, 0, 0x42]), "A\u{FFFD}B");
    assert_eq!(string(&[0, 0x41, 0]), "\u{FFFD}A");
    assert_eq!(string(&[0, 0, 0x41, 0, 0x42, 0, 0]), "\u{FFFD}\u{FFFD}A\u{FFFD}B");
    assert_eq!(string(&[0x41, 0, 0xfffd, 0]), "A\u{FFFD}\u{FFFD}");
    // Other units that are no XML character are not dropped.
    assert_eq!(string(&[0x41, 0, 1]), "A\u{FFFD}\u{FFFD}");
    assert_eq!(string(&[0x41, 0, 0xffff, 0]), "A\u{FFFD}\u{FFFD}");
    assert_eq!(string(&[0x41, 0, 0x20]), "A\u{FFFD} ");
}

/// Zeros are dropped before surrogates are paired.
#[test]
fn surrogates_before_closing_zeros() {
    assert_eq!(string(&[0xd800, 0]), "\u{FFFD}");
    assert_eq!(string(&[0xd800, 0, 0]), "\u{FFFD}");
    assert_eq!(string(&[0xd800, 0, 0xdc00]), "\u{FFFD}\u{FFFD}\u{FFFD}");
    assert_eq!(string(&[0xd800, 0xdc00, 0]), "\u{10000}");
    assert_eq!(string(&[0xd800, 0xdc00, 0, 0]), "\u{10000}");
    assert_eq!(string(&[0x41, 0xdc00, 0]), "A\u{FFFD}");
    assert_eq!(string(&[0, 0xdc00]), "\u{FFFD}\u{FFFD}");
}

/// The type decides, and only for String are zeros dropped.
#[test]
fn closing_zeros_of_other_types() {
    ok(0x0e, &[0x41, 0, 0, 0], "41000000");
    ok(0x06, &[0x41, 0], "65");
    ok(0x0b, &[0x41, 0, 0, 0], "0x00000041");
    wrong(0x02, &[0x41, 0, 0, 0], Cause::Type);
    wrong(0x81, &[0x41, 0, 0, 0], Cause::Type);
}

#[test]
fn integers() {
    ok(0x03, &[0xff], "-1");
    ok(0x03, &[0x80], "-128");
    ok(0x03, &[0x7f], "127");
    ok(0x04, &[0xff], "255");
    ok(0x05, &[0xff, 0x7f], "32767");
    ok(0x05, &[0x00, 0x80], "-32768");
    ok(0x06, &[0x00, 0x80], "32768");
    ok(0x07, &[0, 0, 0, 0x80], "-2147483648");
    ok(0x07, &[0xff, 0xff, 0xff, 0x7f], "2147483647");
    ok(0x08, &[0xff; 4], "4294967295");
    ok(0x09, &[0xff; 8], "-1");
    ok(0x09, &[0, 0, 0, 0, 0, 0, 0, 0x80], "-9223372036854775808");
    ok(0x09, &[0xff, 0xff, 0xff, 0xff, 0xff, 0xff, 0xff, 0x7f], "9223372036854775807");
    ok(0x0a, &[0xff; 8], "18446744073709551615");
    ok(0x0a, &[0; 8], "0");
}

#[test]
fn bits_and_bytes() {
    ok(0x0b, &[0, 0, 0x80, 0x3f], "0x3f800000");
    ok(0x0b, &[1, 0, 0, 0], "0x00000001");
    ok(0x0c, &[0, 0, 0, 0, 0, 0, 0xf0, 0xbf], "0xbff0000000000000");
    ok(0x0d, &[0; 4], "false");
    ok(0x0d, &[0, 0, 0, 1], "true");
    ok(0x0e, &[], "");
    ok(0x0e, &[0x0a, 0xff, 0x00], "0AFF00");
    ok(0x10, &[0; 4], "0x0");
    ok(0x10, &[0xe7, 2, 0, 0, 0, 0, 0, 0], "0x2e7");
    ok(0x14, &[0xff; 4], "0xffffffff");
    ok(0x15, &[0, 0, 0, 0, 0, 0, 0x20, 0x80], "0x8020000000000000");
    let guid: Vec<u8> = (0x10..0x20).collect();
    ok(0x0f, &guid, "{13121110-1514-1716-1819-1A1B1C1D1E1F}");
}

#[test]
fn file_times() {
    let time = |ticks: u64| value_text(0x11, &ticks.to_le_bytes());
    assert_eq!(time(0).unwrap(), "1601-01-01T00:00:00.0000000Z");
    assert_eq!(time(116_444_736_000_000_000).unwrap(), "1970-01-01T00:00:00.0000000Z");
    assert_eq!(time(2_650_467_743_999_999_999).unwrap(), "9999-12-31T23:59:59.9999999Z");
    assert_eq!(time(2_650_467_744_000_000_000), Err(Cause::Content));
    assert_eq!(time(u64::MAX), Err(Cause::Content));
    // 1600 is not in range; 1700 is no leap year and 2000 is one.
    let days = |count: u64| time(count * 864_000_000_000).unwrap();
    assert_eq!(days(36_217), "1700-02-28T00:00:00.0000000Z");
    assert_eq!(days(36_218), "1700-03-01T00:00:00.0000000Z");
    assert_eq!(days(145_790), "2000-02-29T00:00:00.0000000Z");
}

fn system_time(fields: [u16; 8]) -> Result<String, Cause> {
    value_text(0x12, &u16s(&fields))
}

#[test]
fn system_times() {
    let first = system_time([1601, 1, 65_535, 1, 0, 0, 0, 0]).unwrap();
    assert_eq!(first, "1601-01-01T00:00:00.000Z");
    let last = system_time([9999, 12, 0, 31, 23, 59, 59, 999]).unwrap();
    assert_eq!(last, "9999-12-31T23:59:59.999Z");
    assert!(system_time([2000, 2, 0, 29, 0, 0, 0, 0]).is_ok());
    let wrong = [
        [1600, 1, 0, 1, 0, 0, 0, 0],
        [10_000, 1, 0, 1, 0, 0, 0, 0],
        [2001, 0, 0, 1, 0, 0, 0, 0],
        [2001, 13, 0, 1, 0, 0, 0, 0],
        [2001, 1, 0, 0, 0, 0, 0, 0],
        [2001, 1, 0, 32, 0, 0, 0, 0],
        [2001, 2, 0, 29, 0, 0, 0, 0],
        [1900, 2, 0, 29, 0, 0, 0, 0],
        [2001, 4, 0, 31, 0, 0, 0, 0],
        [2001, 1, 0, 1, 24, 0, 0, 0],
        [2001, 1, 0, 1, 0, 60, 0, 0],
        [2001, 1, 0, 1, 0, 0, 60, 0],
        [2001, 1, 0, 1, 0, 0, 0, 1000],
    ];
    for fields in wrong {
        assert_eq!(system_time(fields), Err(Cause::Content), "{fields:?}");
    }
}

/// A security identifier with the given revision, stated count and authority.
fn sid(revision: u8, count: u8, authority: u64, subs: &[u32]) -> Vec<u8> {
    let mut bytes = vec![revision, count];
    bytes.extend_from_slice(&authority.to_be_bytes()[2..]);
    for sub in subs {
        bytes.extend_from_slice(&sub.to_le_bytes());
    }
    bytes
}

#[test]
fn security_identifiers() {
    ok(0x13, &sid(1, 0, 0, &[]), "S-1-0");
    ok(0x13, &sid(1, 2, 5, &[32, 544]), "S-1-5-32-544");
    ok(0x13, &sid(1, 1, 0xffff_ffff, &[0xffff_ffff]), "S-1-4294967295-4294967295");
    ok(0x13, &sid(1, 1, 0x1_0000_0000, &[7]), "S-1-0x000100000000-7");
    ok(0x13, &sid(1, 0, 0xabcd_ef01_2345, &[]), "S-1-0xABCDEF012345");
    ok(0x13, &sid(1, 15, 1, &[2; 15]), &format!("S-1-1{}", "-2".repeat(15)));
    wrong(0x13, &sid(1, 16, 1, &[2; 16]), Cause::Size);
    wrong(0x13, &[], Cause::Size);
    wrong(0x13, &[1, 0, 0, 0], Cause::Size);
    wrong(0x13, &[0; 10], Cause::Size);
    wrong(0x13, &sid(2, 1, 1, &[2]), Cause::Content);
    wrong(0x13, &sid(1, 2, 1, &[2]), Cause::Content);
    wrong(0x13, &sid(1, 0, 1, &[2]), Cause::Content);
}

/// The text of the given UTF-16 units as a literal has it: all are written.
fn units(units: &[u16]) -> String {
    escaped(&u16s(units))
}

#[test]
fn literals_keep_closing_zeros() {
    assert_eq!(units(&[0]), "\u{FFFD}");
    assert_eq!(units(&[0x41, 0, 0]), "A\u{FFFD}\u{FFFD}");
    assert_eq!(units(&[0xd800, 0]), "\u{FFFD}\u{FFFD}");
}

#[test]
fn escapes() {
    assert_eq!(escaped(&utf16("a&b<c>d\"e'f")), "a&amp;b&lt;c&gt;d&quot;e&apos;f");
    assert_eq!(escaped(&utf16("\t\n\r")), "&#9;&#10;&#13;");
    assert_eq!(escaped(&utf16("ä€😀")), "ä€😀");
}

#[test]
fn characters_that_xml_has_not() {
    for unit in (0..0x20).filter(|unit| ![9, 10, 13].contains(unit)) {
        assert_eq!(units(&[unit]), "\u{FFFD}");
    }
    assert_eq!(units(&[0xfffe]), "\u{FFFD}");
    assert_eq!(units(&[0xffff]), "\u{FFFD}");
    assert_eq!(units(&[0xfffd, 0x7f, 0x80, 0x9f, 0xfdd0]), "\u{FFFD}\u{7f}\u{80}\u{9f}\u{FDD0}");
    // The pair of U+1FFFE, which is an XML character.
    assert_eq!(units(&[0xd83f, 0xdffe]), "\u{1FFFE}");
}

#[test]
fn surrogates() {
    assert_eq!(units(&[0xd800, 0xdc00]), "\u{10000}");
    assert_eq!(units(&[0xdbff, 0xdfff]), "\u{10FFFF}");
    assert_eq!(units(&[0xd800]), "\u{FFFD}");
    assert_eq!(units(&[0xdc00]), "\u{FFFD}");
    assert_eq!(units(&[0xd800, 0x41]), "\u{FFFD}A");
    assert_eq!(units(&[0xd800, 0xd800, 0xdc00]), "\u{FFFD}\u{10000}");
    assert_eq!(units(&[0xdc00, 0xd800]), "\u{FFFD}\u{FFFD}");
}
