//! The search of bytes that come in packets: which records a call lists, what
//! the store holds then, and what is refused.

mod common;

use common::{fed, sized};
use log_writer::*;
use second_reader::stream::*;

const MOST: u64 = 1_099_511_627_776;

#[test]
fn a_beginning_is_open_until_a_byte_rules_it_out() {
    let cases: [(&[u8], bool); 22] = [
        (&[0x2a], true),
        (&[0x2b], false),
        (&[0x2a, 0x2a], true),
        (&[0x2a, 0x00], false),
        (&[0x2a, 0x2a, 0x2a], false),
        (&[0x2a, 0x2a, 0], true),
        (&[0x2a, 0x2a, 0, 1], false),
        (&[0x2a, 0x2a, 0, 0], true),
        // One byte of the size rules nothing out: 256 and more can be added.
        (&[0x2a, 0x2a, 0, 0, 0x00], true),
        (&[0x2a, 0x2a, 0, 0, 0x1b], true),
        (&[0x2a, 0x2a, 0, 0, 0xff], true),
        // 27, 28, 65,024 and 65,025, 0 and 65,535
        (&[0x2a, 0x2a, 0, 0, 0x1b, 0x00], false),
        (&[0x2a, 0x2a, 0, 0, 0x1c, 0x00], true),
        (&[0x2a, 0x2a, 0, 0, 0x00, 0xfe], true),
        (&[0x2a, 0x2a, 0, 0, 0x01, 0xfe], false),
        (&[0x2a, 0x2a, 0, 0, 0x00, 0x00], false),
        (&[0x2a, 0x2a, 0, 0, 0xff, 0xff], false),
        (&[0x2a, 0x2a, 0, 0, 0x1c, 0x00, 0], true),
        (&[0x2a, 0x2a, 0, 0, 0x1c, 0x00, 1], false),
        (&[0x2a, 0x2a, 0, 0, 0x1c, 0x00, 0, 0], true),
        (&[0x2a, 0x2a, 0, 0, 0x1c, 0x00, 0, 1], false),
        (&[0x2a, 0x2a, 0, 0, 0x00, 0x00, 1, 0], false),
    ];
    for (arrived, open) in cases {
        assert_eq!(is_open(arrived), open, "{arrived:x?}");
    }
}

#[test]
fn a_byte_of_the_second_size_rules_it_out() {
    for size in [28, 29, 300, 65_024] {
        let record = sized(size);
        for arrived in [9, 24, size - 4, size - 3, size - 2, size - 1] {
            assert!(is_open(&record[..arrived]), "{arrived} of {size}");
        }
        assert!(!is_open(&record));
        for wrong in size - 4..size {
            let mut record = record.clone();
            record[wrong] ^= 0x40;
            assert!(is_open(&record[..wrong]) && !is_open(&record[..wrong + 1]));
        }
    }
}

/// Places, sizes and with how many bytes they are settled.
fn visited(bytes: &[u8]) -> Vec<(u64, Option<u64>, u64)> {
    let search = Search::over(bytes);
    search.all().iter().map(|visit| (visit.place, visit.size, visit.settled)).collect()
}

#[test]
fn what_settles_a_place() {
    assert_eq!(visited(&[]), []);
    let record = [vec![0, 0x2a, 0], sized(28), vec![0x2a]].concat();
    assert_eq!(visited(&record), [(1, None, 3), (3, Some(28), 31), (31, None, NEVER)]);
    // What stands behind an open place is not settled before it is.
    let three = [0x2a, 0x2a, 0x2a, 0, 0, 27, 0];
    let first = [(0, None, 3), (1, None, 7), (2, None, 7)];
    let behind = [(3, None, 7), (4, None, 7), (5, None, 7)];
    assert_eq!(visited(&three), [first, behind].concat());
}

/// A record of 100 bytes with another of 28 at 40 in it, and a wrong byte in its
/// second size.
fn outer(wrong: usize) -> Vec<u8> {
    let mut bytes = sized(100);
    put(&mut bytes, 40, &sized(28));
    bytes[wrong] ^= 1;
    bytes
}

#[test]
fn a_record_inside_another_is_listed_when_that_is_ruled_out() {
    for wrong in 96..100 {
        let bytes = outer(wrong);
        let arrived = wrong as u64 + 1;
        let search = Search::over(&bytes);
        assert_eq!(records(search.settled(arrived - 1), 0), []);
        assert_eq!(search.open_from(arrived - 1), 0);
        assert_eq!(records(search.settled(arrived), 0), [(40, 28)]);
        assert_eq!(search.open_from(arrived), arrived);
    }
    let whole = [outer(50), vec![0; 9]].concat();
    assert_eq!(records(Search::over(&whole).settled(99), 0), []);
    assert_eq!(records(Search::over(&whole).settled(100), 0), [(0, 100)]);
}

#[test]
fn calls_list_what_they_settle() {
    let bytes = [outer(98), sized(30)].concat();
    assert_eq!(fed(&[&bytes]), [vec![(40, 28), (100, 30)], vec![]]);
    assert_eq!(fed(&[&bytes[..98], &bytes[98..]]), [vec![], vec![(40, 28), (100, 30)], vec![]]);
    assert_eq!(fed(&[&bytes[..99], &[], &bytes[99..]])[0], [(40, 28)]);
    // The closing call lists what an end that did not come could have undone.
    assert_eq!(fed(&[&bytes[..98]]), [vec![], vec![(40, 28)]]);
    assert_eq!(fed(&[&bytes[..129]]), [vec![(40, 28)], vec![]]);
    assert_eq!(fed(&[]), [vec![]]);
}

#[test]
fn what_is_held_begins_where_something_is_open() {
    let held = |packet: &[u8]| feed(&vec![0; STORE], packet, 9).unwrap().1.held;
    assert_eq!(held(&[]), []);
    assert_eq!(held(&[0; 30]), []);
    assert_eq!(held(&[0, 0x2a]), [0x2a]);
    assert_eq!(held(&[0x2a, 0x2a, 0x2a]), [0x2a, 0x2a]);
    assert_eq!(held(&[&sized(28)[..], &[0x2a, 0x2a, 0]].concat()), [0x2a, 0x2a, 0]);
    assert_eq!(held(&sized(65_024)[..65_023]), sized(65_024)[..65_023]);
}

#[test]
fn refusals_in_their_order() {
    let zeros = vec![0; STORE];
    let at = |total: u64| store_with(total, 0, &[]);
    let numbers = |store: &[u8], packet: usize| {
        (feed(store, &vec![0; packet], 9).err(), close(store, 9).err())
    };
    assert_eq!(numbers(&zeros, 65_536), (None, None));
    assert_eq!(numbers(&zeros, 65_537), (Some(1), None));
    for length in [0, 15, 65_535, 65_537] {
        assert_eq!(numbers(&vec![0; length], 0), (Some(1), Some(1)));
    }
    assert_eq!(numbers(&at(MOST - 1), 1), (None, None));
    assert_eq!(numbers(&at(MOST - 1), 2), (Some(1), None));
    assert_eq!(numbers(&at(MOST), 0), (None, None));
    assert_eq!(numbers(&at(MOST), 1), (Some(1), None));
    assert_eq!(numbers(&at(MOST + 1), 0), (Some(1), Some(1)));
    assert_eq!(numbers(&at(u64::MAX), 65_536), (Some(1), Some(1)));
    assert_eq!(numbers(&closed(zeros.clone()), 0), (Some(14), Some(14)));
    assert_eq!(numbers(&closed(zeros), 65_537), (Some(1), Some(14)));
    assert_eq!(numbers(&closed(at(MOST + 1)), 0), (Some(1), Some(1)));
    let store = store_with(40, 0, &sized(28)[..27]);
    assert_eq!(feed(&store, &[0], 0).err(), Some(13));
    assert_eq!(feed(&store, &[0], 1).unwrap().0, [(13, 28)]);
    assert_eq!(feed(&closed(store.clone()), &[0], 0).err(), Some(14));
    let whole = store_with(40, 7, &sized(28));
    assert_eq!(close(&whole, 0).err(), Some(13));
    assert_eq!(close(&whole, 1).unwrap().0, [(12, 28)]);
    assert_eq!(close(&closed(whole), 0).err(), Some(14));
}

#[test]
fn any_store_holds_a_stream() {
    let mut store = store_with(0x0102_0304_0506, 65_500, &[7; 20]);
    let stream =
        |total: u64, closed: bool, held: &[u8]| Stream { total, closed, held: held.to_vec() };
    assert_eq!(Stream::of(&store), stream(0x0102_0304_0506, false, &[7; 20]));
    // The held bytes end with the store, and may begin behind it.
    put(&mut store, 10, &[0xff, 0xff, 0x80]);
    assert_eq!(Stream::of(&store), stream(0x0102_0304_0506, true, &[7; 20]));
    put(&mut store, 8, &[0xff, 0xff]);
    assert_eq!(Stream::of(&store).held, []);
    assert_eq!(Stream::of(&vec![0xff; STORE]), stream(u64::MAX, true, &[]));
    // More is held than was taken: what is held begins at 0.
    let few = store_with(5, 0, &[vec![0; 3], sized(28)].concat());
    assert_eq!(close(&few, 1).unwrap().0, [(3, 28)]);
    let many = store_with(1_000, 300, &[vec![0; 3], sized(28)].concat());
    assert_eq!(feed(&many, &[], 1).unwrap(), (vec![(972, 28)], stream(1_000, false, &[])));
}

#[test]
fn the_most_records_of_a_call() {
    let held: Vec<u8> = sized(28).repeat(2_340);
    let store = store_with(65_520, 0, &held);
    let packet: Vec<u8> = [sized(28).repeat(2_340), vec![0; 16]].concat();
    assert_eq!(feed(&store, &packet, 4_680).unwrap().0.len(), 4_680);
    assert_eq!(feed(&store, &packet, 4_679).err(), Some(13));
    assert_eq!(close(&store, 2_340).unwrap().0.len(), 2_340);
}
