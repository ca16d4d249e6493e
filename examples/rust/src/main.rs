//! Prints number and text of each record of a log, or why it is refused.
//!
//!     evtx_safe LOG
//!
//! Of a chunk all whole records are printed, those that stand in its free space
//! too: what an earlier use of the file left there.
//!
//! Exit status: 1 if something cannot be read or written, which a line on
//! standard error tells; 2 for wrong arguments. Where the reader of a pipe takes
//! no more, the program ends quietly, with the status that a shell gives to
//! programs that the signal of a closed pipe ends. A standard output that is
//! closed is no failure: Rust puts /dev/null in its place.

use evtx_safe::{check_chunk, check_file_header, record_fields, record_text, search_chunk};
use evtx_safe::{text_length, Refusal, CHUNK_SIZE, FILE_HEADER_SIZE, MOST_RECORDS_OF_CHUNK};
use std::io::{Error, ErrorKind, Result, Write};
use std::path::{Path, PathBuf};
use std::process::ExitCode;

/// A longer text is not printed: its length is.
const ROOM: usize = 65_536;

const CLOSED_PIPE: u8 = 141;

fn print_record(chunk: &[u8], offset: u64, out: &mut impl Write) -> Result<()> {
    let mut room = [0; ROOM];
    let number = record_fields(chunk, offset).map_or(0, |fields| fields.record_number);
    match record_text(chunk, offset, &mut room) {
        Ok(text) => writeln!(out, "{number} {text}"),
        Err(Refusal::Room) => {
            let length = text_length(chunk, offset).expect("no more is wanted than room");
            writeln!(out, "{number} has a text of {length} bytes")
        }
        Err(refusal) => writeln!(out, "{number} refused: {refusal:?}"),
    }
}

fn print_log(log: &[u8], out: &mut impl Write) -> Result<()> {
    let (header, rest) = log.split_at(FILE_HEADER_SIZE.min(log.len()));
    if let Err(refusal) = check_file_header(header) {
        writeln!(out, "header: {refusal:?}")?;
    }
    let mut list = [0; MOST_RECORDS_OF_CHUNK];
    for (index, chunk) in rest.chunks_exact(CHUNK_SIZE).enumerate() {
        if let Err(refusal) = check_chunk(chunk) {
            writeln!(out, "chunk {index}: {refusal:?}")?;
        }
        for offset in search_chunk(chunk, &mut list).expect("a whole chunk and room enough") {
            print_record(chunk, u64::from(*offset), out)?;
        }
    }
    Ok(())
}

/// Not by eprintln, which panics where standard error cannot be written.
fn tell(line: std::fmt::Arguments) {
    let _ = writeln!(std::io::stderr(), "{line}");
}

fn failed(name: &Path, error: &Error) -> ExitCode {
    tell(format_args!("evtx_safe: {}: {error}", name.display()));
    ExitCode::FAILURE
}

fn main() -> ExitCode {
    let mut arguments = std::env::args_os().skip(1).map(PathBuf::from);
    let (Some(path), None) = (arguments.next(), arguments.next()) else {
        tell(format_args!("usage: evtx_safe LOG"));
        return ExitCode::from(2);
    };
    let log = match std::fs::read(&path) {
        Ok(log) => log,
        Err(error) => return failed(&path, &error),
    };
    match print_log(&log, &mut std::io::stdout().lock()) {
        Ok(()) => ExitCode::SUCCESS,
        Err(error) if error.kind() == ErrorKind::BrokenPipe => ExitCode::from(CLOSED_PIPE),
        Err(error) => failed(Path::new("standard output"), &error),
    }
}
