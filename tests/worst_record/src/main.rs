//! How long the text of the longest-running records takes, with room for 65,536
//! bytes: one large value or one long name is written as often as the limit of
//! 65,536 attributes and items allows. The text is far longer than the room, so
//! that the call answers 13, and nothing is converted any more once the room is
//! full. Of a string of zeros nothing is written: the room never fills, and the
//! string is looked at each time.

use first_reader::record_text;
use log_writer::*;
use std::ffi::c_long;

const ROOM: usize = 65_536;
const TRIES: usize = 2;
const NAME: usize = 5_000;
const NAME_UNITS: usize = 30_000;
const VALUE: usize = 62_000;
/// How often a record reads its fragment, and how often that shows the value.
const TURNS: usize = 254;
const TIMES: usize = 256;

extern "C" {
    /// The processor time of this process, in microseconds.
    fn clock() -> c_long;
}

/// A record and what its text answers, by hand from the rules.
struct Case {
    name: &'static str,
    chunk: Vec<u8>,
    /// How many bytes of value or name its reading goes through.
    bytes: f64,
    number: u32,
    text: Vec<u8>,
}

/// A record with one value, which is shown `TIMES` times by each of `TURNS`
/// readings of one fragment.
fn one_value(kind: u8, unit: &[u8]) -> Vec<u8> {
    let value: Vec<u8> = unit.iter().copied().cycle().take(VALUE).collect();
    let inner = |w: &mut Writer| {
        let shown = |w: &mut Writer| (0..TIMES).for_each(|_| w.substitution(0x0d, 0));
        w.instance(|w| w.open("i", shown), &[plain(kind, value.clone())]);
    };
    let read = |w: &mut Writer| (0..TURNS).for_each(|_| w.substitution(0x0d, 0));
    one_record(|w| w.instance(|w| w.open("o", read), &[Value::Fragment(&inner)]))
}

/// The same for elements, all of one name that stands behind the record.
fn one_name() -> Vec<u8> {
    let (turns, times) = (504, 128);
    let named = |w: &mut Writer| {
        w.element(0x01, |w| {
            w.pointer(NAME);
            w.items(|_| ());
        });
    };
    let inner = |w: &mut Writer| {
        w.instance(|w| w.open("i", |w| (0..times).for_each(|_| named(w))), &[]);
    };
    let read = |w: &mut Writer| (0..turns).for_each(|_| w.substitution(0x0d, 0));
    let mut chunk = one_record(|w| w.instance(|w| w.open("o", read), &[Value::Fragment(&inner)]));
    place(&mut chunk, NAME, |w| w.bare_name(&"n".repeat(NAME_UNITS)));
    chunk
}

/// In seconds; other processes do not count.
fn processor_time() -> f64 {
    // Safety: it takes nothing.
    unsafe { clock() as f64 * 1e-6 }
}

/// The best time of some, in seconds.
fn seconds(case: &mut Case, out: &mut Vec<u8>) -> f64 {
    let mut best = f64::INFINITY;
    let due = (case.number, case.text.len() as u64);
    for _ in 0..TRIES {
        out.fill(0);
        let start = processor_time();
        let answer = record_text(&mut case.chunk, 512, out);
        best = best.min(processor_time() - start);
        assert_eq!((answer.number, answer.length), due, "not the record that was meant");
        assert!(out.starts_with(&case.text), "another text than is due");
    }
    best
}

fn cases() -> Vec<Case> {
    let values = (TURNS * TIMES * VALUE) as f64;
    let names = 504.0 * 128.0 * 2.0 * NAME_UNITS as f64;
    let long = |name, chunk, bytes| Case { name, chunk, bytes, number: 13, text: Vec::new() };
    let empty = "<o>".to_string() + &"<i></i>".repeat(TURNS) + "</o>";
    let zeros = one_value(0x01, &[0, 0]);
    vec![
        long("a string of letters", one_value(0x01, &[0x61, 0]), values),
        long("a string of quotation marks", one_value(0x01, &[0x22, 0]), values),
        Case { text: empty.into(), number: 0, ..long("a string of zeros", zeros, values) },
        long("elements of one name", one_name(), names),
    ]
}

fn main() {
    let mut out = vec![0; ROOM];
    println!("the text of one record, room {ROOM}, and what it answers");
    for mut case in cases() {
        let took = seconds(&mut case, &mut out);
        let read = case.bytes * 1e-9;
        println!(
            "  {:32} {:2} {took:6.2} s for {read:.2} GB of value or name, {:.2} GB/s",
            case.name,
            case.number,
            read / took
        );
    }
}
