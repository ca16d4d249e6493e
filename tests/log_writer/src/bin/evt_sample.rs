//! Writes samples/oldpanel.evt to standard output: the log of an old panel, as a power
//! cut left it. Its oldest records were given up, so that the first one stands in the
//! middle of the file, and one that is cut by the file's end goes on behind the header.

use log_writer::evt::{Event, Service};
use std::io::Write;

const LENGTH: usize = 4_112;
const EVENTS: u32 = 61;
/// 2006-03-27, 06:00:00 UTC.
const FIRST_TIME: u32 = 1_143_439_200;

fn units(text: &str) -> Vec<u16> {
    text.encode_utf16().collect()
}

/// Every fifth event is a warning with two strings more.
fn event(turn: u32) -> Event {
    let time = FIRST_TIME + 97 * turn;
    let warning = turn % 5 == 4;
    let mut strings = vec![units("Brücke 7"), units(&format!("{} mm", 1_200 + 37 * turn % 411))];
    if warning {
        strings.extend([units(""), units("over the limit <b> & \"held\"\r\n")]);
    }
    Event {
        generated: time - 2,
        written: time,
        id: if warning { 0x8000_0103 } else { 0x4000_0101 },
        kind: if warning { 2 } else { 4 },
        category: 3,
        source: "Panel".to_string(),
        computer: "SITE07".to_string(),
        sid: Vec::new(),
        strings,
        data: turn.to_le_bytes().to_vec(),
    }
}

fn main() -> std::io::Result<()> {
    let mut log = Service::new(LENGTH, 1);
    for turn in 0..EVENTS {
        assert!(log.write(event(turn)), "too long an event");
        if turn == 40 {
            log.open();
        }
    }
    std::io::stdout().lock().write_all(&log.dirty())
}
