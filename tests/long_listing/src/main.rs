//! Lists logs with the first reader's program, and compares what it writes to
//! standard output with the second reader's listing, byte for byte, and to
//! standard error with the lines due there. The listings are longer than the
//! program's memory for output; so they show what it does when that is full.
//!
//! `long_listing [PROGRAM]`: PROGRAM is the first reader's listing program.

mod log;
mod run;

use log::{assert_places, long_log};
use log_writer::{CHUNK, HEADER};
use run::{run, Sink, Source};
use second_reader::listing::listing;
use std::path::{Path, PathBuf};
use std::process::ExitCode;
use support::difference::{first_difference, report, Difference, Origin};

const CALL: &str = "evtx_list";
const TARGET: &str = concat!(env!("CARGO_MANIFEST_DIR"), "/../../target");
/// How many bytes the long log has after its last chunk.
const LEFT_OVER: usize = 40_000;

/// What is listed of the front of a log, by hand.
const FRONTS: [(usize, &str); 5] = [
    (0, "header refused 1\n"),
    (1, "header refused 1\n"),
    (HEADER - 1, "header refused 1\n"),
    (HEADER, "header ok\n"),
    (HEADER + 1, "header ok\nrest 1\n"),
];

/// A listing is whole only if nothing stands on standard error.
const NONE: &str = "";

/// How a program ends where nobody reads its pipe any more, as a shell says it of
/// one that the signal ends.
const UNREAD: i32 = 141;

/// The line on standard error, as packaging/evtx_list.1 has it: which stream
/// failed, and the system's text for the reason.
fn failed(stream: &str, reason: &str) -> String {
    format!("evtx_list: standard {stream}: {reason}\n")
}

struct Trials {
    program: PathBuf,
    runs: usize,
    listed: usize,
}

/// What is due of a run, and its name and the bytes that are read in it.
struct Due<'a> {
    name: &'a str,
    bytes: &'a [u8],
    lines: &'a [u8],
    errors: &'a str,
}

/// How a run differs from what is due.
fn difference(program: &Path, source: Source, sink: Sink, due: &Due) -> Option<String> {
    let output = match run(program, source, sink) {
        Ok(output) => output,
        Err(error) => return Some(format!("{}: {error}", program.display())),
    };
    let errors = String::from_utf8_lossy(&output.stderr);
    let status = if let Sink::Unread = sink { UNREAD } else { 0 };
    if output.status.code() != Some(status) {
        // By signal 9 if it did not end in time.
        return Some(format!("the program ended with {}; standard error: {errors}", output.status));
    }
    if errors != due.errors {
        return Some(format!("standard error: {errors}\ndue there: {}", due.errors));
    }
    first_difference(&output.stdout, due.lines, "due")
}

impl Trials {
    /// Answers whether a run writes what is due.
    fn hold(&mut self, source: Source, sink: Sink, due: Due) -> bool {
        self.runs += 1;
        self.listed += due.lines.len();
        let Some(found) = difference(&self.program, source, sink, &due) else { return true };
        let asked = format!("of {} bytes", due.bytes.len());
        let difference = Difference { call: CALL, asked, found };
        let origin = Origin { kind: due.name, seed: 0, part: 0, bytes: due.bytes };
        report(&difference, &origin, &Path::new(TARGET).join("long-listing-difference.bin"));
        false
    }

    /// The listing through pipes, in pieces of up to `most` bytes.
    fn piped(&mut self, name: &str, bytes: &[u8], most: usize, lines: &[u8]) -> bool {
        let due = Due { name, bytes, lines, errors: NONE };
        self.hold(Source::Pipe(bytes, most), Sink::Pipe, due)
    }

    fn long_listings(&mut self, log: &[u8], lines: &[u8]) -> bool {
        let read = &Path::new(TARGET).join("long-listing.evtx");
        let written = &Path::new(TARGET).join("long-listing.lines");
        std::fs::write(read, log).expect("the target folder takes a log");
        let due = Due { name: "a long log, from file to file", bytes: log, lines, errors: NONE };
        let holds = self.piped("a long log", log, 1 << 20, lines)
            && self.piped("a long log in small pieces", log, 5_000, lines)
            && self.hold(Source::File(read), Sink::File(written), due);
        let _ = std::fs::remove_file(read);
        let _ = std::fs::remove_file(written);
        holds
    }

    /// Logs that are cut: below a header's length, between chunks and in one.
    fn cut_logs(&mut self, log: &[u8]) -> bool {
        for (length, lines) in FRONTS {
            for most in [1, 5_000] {
                if !self.piped("a short log", &log[..length], most, lines.as_bytes()) {
                    return false;
                }
            }
        }
        // Enough chunks for the memory to be written out once or more.
        [0, 1, 32_768, CHUNK - 1].into_iter().all(|left_over| {
            let cut = &log[..HEADER + 60 * CHUNK + left_over];
            self.piped("a log that is cut", cut, 5_000, &listing(cut))
        })
    }

    /// Standard output that does not take the listing, at its end or, with the
    /// long log, long before.
    fn failing_outputs(&mut self, log: &[u8]) -> bool {
        let short = &log[..HEADER + CHUNK];
        let sinks = [
            (Sink::Full, failed("output", "No space left on device")),
            (Sink::Unread, NONE.to_string()),
            (Sink::Closed, failed("output", "Bad file descriptor")),
        ];
        for (sink, errors) in &sinks {
            let sink = *sink;
            for bytes in [&[], short, log] {
                let name = "output that cannot be written";
                let due = Due { name, bytes, lines: b"", errors };
                if !self.hold(Source::Pipe(bytes, 1 << 20), sink, due) {
                    return false;
                }
            }
        }
        true
    }

    /// Standard input that cannot be read: nothing is listed.
    fn unreadable_inputs(&mut self) -> bool {
        let reasons = [
            (Source::Closed, "Bad file descriptor"),
            (Source::File(Path::new(TARGET)), "Is a directory"),
        ];
        reasons.into_iter().all(|(source, reason)| {
            let name = "input that cannot be read";
            let due = Due { name, bytes: b"", lines: b"", errors: &failed("input", reason) };
            self.hold(source, Sink::Pipe, due)
        })
    }

    /// Standard input that breaks off: what was read is listed.
    fn breaking_inputs(&mut self, log: &[u8]) -> bool {
        let errors = &failed("input", "Resource temporarily unavailable");
        [0, 100, HEADER, HEADER + CHUNK, HEADER + CHUNK + 5].into_iter().all(|length| {
            let name = "input that cannot be read to its end";
            let bytes = &log[..length];
            let due = Due { name, bytes, lines: &listing(bytes), errors };
            self.hold(Source::Breaking(bytes), Sink::Pipe, due)
        })
    }
}

fn main() -> ExitCode {
    let standing = format!("{TARGET}/bin/evtx_list");
    let program = PathBuf::from(std::env::args().nth(1).unwrap_or(standing));
    let log = long_log(LEFT_OVER);
    let lines = listing(&log.bytes);
    assert!(lines.len() == log.length, "the listing is not as long as is meant");
    assert_places(&log);
    let mut trials = Trials { program, runs: 0, listed: 0 };
    let holds = trials.long_listings(&log.bytes, &lines)
        && trials.cut_logs(&log.bytes)
        && trials.failing_outputs(&log.bytes)
        && trials.unreadable_inputs()
        && trials.breaking_inputs(&log.bytes);
    if !holds {
        return ExitCode::FAILURE;
    }
    println!("{} listings of {} bytes, no difference", trials.runs, trials.listed);
    ExitCode::SUCCESS
}
