//! The listing of EVT logs, with lines by hand.

use log_writer::evt::*;
use log_writer::put_u32;
use second_reader::evt_listing::listing;

const FILL: [u8; 4] = [0x27, 0, 0, 0];

fn event(strings: &[&str]) -> Event {
    let strings = strings.iter().map(|text| text.encode_utf16().collect()).collect();
    Event { written: 86_400, id: 0xc000_0007, kind: 2, category: 9, strings, ..Event::default() }
}

/// A clean log whose header has these offsets.
fn log(first: usize, cursor: usize, behind: &[u8]) -> Vec<u8> {
    let mut file = file_with(0, behind);
    put_u32(&mut file, 16, first as u32);
    put_u32(&mut file, 20, cursor as u32);
    file
}

/// A record behind the trailer, so many fill words behind it, and one at 48.
fn with_fill(words: usize) -> Vec<u8> {
    let (old, new) = (event(&["a<b", ""]).record(7), event(&[]).record(8));
    let behind = [&new[..], &end_record([0; 4]), &old, &FILL.repeat(words)].concat();
    log(HEADER + new.len() + END_RECORD, HEADER + new.len(), &behind)
}

const OLD: &str = "7 86400 3221225479 2 9 a&lt;b \n";
const NEW: &str = "8 86400 3221225479 2 9\n";

#[test]
fn fill_words_of_less_than_56_bytes_are_passed_over() {
    for words in 0..20 {
        let due = if words < 14 { [OLD, NEW].concat() } else { format!("{OLD}refused 18\n") };
        assert_eq!(listing(&with_fill(words)), due, "{words} fill words");
    }
    let mut other = with_fill(3);
    *other.last_mut().unwrap() = 1;
    assert_eq!(listing(&other), format!("{OLD}refused 18\n"));
}

#[test]
fn a_circle_is_passed_once() {
    let (old, new) = (event(&["a<b", ""]).record(7), event(&[]).record(8));
    for words in 0..5 {
        let behind = [&new[..], &old, &FILL.repeat(words)].concat();
        let file = log(HEADER + new.len(), HEADER + 1, &behind);
        assert_eq!(listing(&file), format!("{OLD}{NEW}refused 18\n"), "{words} fill words");
    }
}

#[test]
fn nothing_stands_between_equal_offsets() {
    assert_eq!(listing(&log(HEADER, HEADER, &event(&[]).record(1))), "");
    assert_eq!(listing(&log(7, 7, &[])), "");
}

#[test]
fn what_is_refused_is_the_last_line() {
    assert_eq!(listing(&[]), "refused 1\n");
    assert_eq!(listing(&[0; 48]), "refused 2\n");
    assert_eq!(listing(&file_with(DIRTY, &[0; 40])), "refused 17\n");
    assert_eq!(listing(&log(HEADER, 0, &[0; 40])), "refused 18\n");
    assert_eq!(listing(&log(0, HEADER, &[0; 40])), "refused 18\n");
    assert_eq!(listing(&log(1_000, HEADER, &[0; 40])), "refused 18\n");
}

#[test]
fn the_sample() {
    let path = |name: &str| format!("{}/../../samples/{name}", env!("CARGO_MANIFEST_DIR"));
    let file = std::fs::read(path("oldpanel.evt")).unwrap();
    assert_eq!(listing(&file), std::fs::read_to_string(path("oldpanel.listing")).unwrap());
    let numbers = listing(&file).lines().map(|line| line[..2].to_string()).collect::<Vec<_>>();
    assert_eq!(numbers, (34..62).map(|number: u32| number.to_string()).collect::<Vec<_>>());
}
