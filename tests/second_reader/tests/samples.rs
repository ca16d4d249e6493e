//! The listing of each sample log is the one that stands beside it.

mod common;

use common::read_sample;
use second_reader::listing::listing;

fn check(name: &str) {
    let log = read_sample(&format!("{name}.evtx"));
    let expected = read_sample(&format!("{name}.listing"));
    let got = listing(&log);
    let equal = got.iter().zip(&expected).take_while(|(a, b)| a == b).count();
    let line = expected[..equal].iter().filter(|byte| **byte == 10).count() + 1;
    assert!(got == expected, "{name}: first difference at byte {equal}, line {line}");
}

#[test]
fn panel() {
    check("panel");
}

#[test]
fn windows() {
    check("windows");
}

#[test]
fn powercut() {
    check("powercut");
}
