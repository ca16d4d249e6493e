//! EVT logs as the service writes them: where records, fill words and trailer stand,
//! worked out by hand.

use log_writer::evt::*;
use log_writer::get_u32;

/// An event whose record has 68 bytes: the fixed fields, two names without a letter,
/// four bytes more and the second length.
fn shortest() -> Event {
    Event::default()
}

/// A log of so many bytes, with so many of these records.
fn written(length: usize, records: usize) -> Service {
    let mut log = Service::new(length, 1);
    (0..records).for_each(|_| assert!(log.write(shortest())));
    log
}

fn kept(log: &Service) -> Vec<(usize, u32)> {
    log.kept().map(|kept| (kept.offset, kept.number)).collect()
}

#[test]
fn a_record_of_every_part() {
    let event = Event {
        generated: 0x0101,
        written: 0x0202,
        id: 0x0303,
        kind: 4,
        category: 5,
        source: "S".to_string(),
        computer: "PC".to_string(),
        sid: vec![0x77; 12],
        strings: vec![vec![0x61, 0x62], vec![]],
        data: vec![0xd1, 0xd2, 0xd3],
    };
    let due = b"\x60\0\0\0LfLe\x09\0\0\0\x01\x01\0\0\x02\x02\0\0\x03\x03\0\0\
        \x04\0\x02\0\x05\0\0\0\0\0\0\0\x50\0\0\0\x0c\0\0\0\x44\0\0\0\x03\0\0\0\x58\0\0\0\
        S\0\0\0P\0C\0\0\0\0\0\x77\x77\x77\x77\x77\x77\x77\x77\x77\x77\x77\x77\
        a\0b\0\0\0\0\0\xd1\xd2\xd3\0\x60\0\0\0";
    assert_eq!(event.record(9), due);
}

/// A length that is a multiple of 4 is padded by four bytes.
#[test]
fn records_are_padded() {
    assert_eq!(shortest().record(1).len(), 68);
    for (data, length) in [(0, 68), (1, 68), (3, 68), (4, 72), (7, 72), (8, 76)] {
        let event = Event { data: vec![1; data], ..shortest() };
        assert_eq!(event.record(1).len(), length, "{data}");
    }
}

#[test]
fn an_empty_log() {
    let log = Service::new(348, 1);
    let end = end_record([48, 48, 1, 0]);
    let due = [header([48, 48, 1, 0], 348, 0), end, vec![0; 260]].concat();
    assert_eq!(log.closed(), due);
}

#[test]
fn the_trailer_follows_the_last_record() {
    let log = written(348, 2);
    assert_eq!(kept(&log), [(48, 1), (116, 2)]);
    let numbers = [48, 184, 3, 1];
    let records = [shortest().record(1), shortest().record(2), end_record(numbers)].concat();
    assert_eq!(log.closed(), [header(numbers, 348, 0), records, vec![0; 124]].concat());
}

/// The records are at 48, 116, 184, 252; then 28 bytes are left, which are filled.
#[test]
fn oldest_records_are_given_up() {
    let log = written(348, 4);
    assert_eq!(kept(&log), [(116, 2), (184, 3), (252, 4)]);
    assert_eq!(log.numbers(), [116, 320, 5, 2]);
    // The trailer goes on at 48.
    assert_eq!(log.closed()[320..], end_record([116, 320, 5, 2])[..28]);
    assert_eq!(log.closed()[48..60], end_record([116, 320, 5, 2])[28..]);
    let log = written(348, 5);
    assert_eq!(kept(&log), [(184, 3), (252, 4), (48, 5)]);
    assert_eq!(log.closed()[320..], [0x27, 0, 0, 0].repeat(7));
    assert_eq!(log.closed()[48..116], shortest().record(5));
    assert_eq!(log.closed()[116..156], end_record([184, 116, 6, 3]));
    assert_eq!(kept(&written(348, 6)), [(252, 4), (48, 5), (116, 6)]);
    assert_eq!(kept(&written(348, 7)), [(48, 5), (116, 6), (184, 7)]);
}

/// 60 bytes are left behind the third record, enough for the fixed fields.
#[test]
fn a_record_goes_on_behind_the_header() {
    let log = written(312, 4);
    assert_eq!(kept(&log), [(116, 2), (184, 3), (252, 4)]);
    assert_eq!(log.closed()[252..], shortest().record(4)[..60]);
    assert_eq!(log.closed()[48..56], shortest().record(4)[60..]);
    assert_eq!(log.closed()[56..96], end_record([116, 56, 5, 2]));
    // 56 bytes are enough, 52 are not.
    assert_eq!(written(308, 4).kept().last().map(|last| last.offset), Some(252));
    assert_eq!(written(304, 4).kept().last().map(|last| last.offset), Some(48));
}

/// A record that ends with the file's last byte: the trailer is at 48.
#[test]
fn a_log_filled_to_the_end() {
    let log = written(48 + 4 * 68, 4);
    assert_eq!(kept(&log), [(116, 2), (184, 3), (252, 4)]);
    assert_eq!(log.end(), 48);
    assert_eq!(log.closed()[48..88], end_record([116, 48, 5, 2]));
}

#[test]
fn records_that_do_not_fit() {
    let mut log = Service::new(48 + 68 + 36, 1);
    let before = log.dirty();
    assert!(!log.write(shortest()));
    assert_eq!(log.dirty(), before);
    let mut log = Service::new(48 + 68 + 40, 1);
    assert!(log.write(shortest()));
    assert_eq!(log.closed()[48..116], shortest().record(1));
    // The 40 bytes behind it would be filled, and leave too few for a second one.
    assert!(!log.write(shortest()));
    assert_eq!(kept(&log), [(48, 1)]);
}

/// A dirty header has the numbers of the opening, the trailer those of now.
#[test]
fn a_log_that_is_not_closed() {
    let mut log = written(348, 1);
    log.open();
    assert!(log.write(shortest()));
    let dirty = log.dirty();
    assert_eq!(dirty[..48], header([48, 116, 2, 1], 348, 1));
    assert_eq!(dirty[184..224], end_record([48, 184, 3, 1]));
    assert_eq!(dirty[48..], log.closed()[48..]);
    for _ in 0..3 {
        log.write(shortest());
    }
    // Written past the end: the flag for that is set too.
    assert_eq!((get_u32(&log.dirty(), 36), get_u32(&log.closed(), 36)), (3, 2));
}
