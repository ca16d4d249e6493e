//! Runs the listing program with what it reads and writes set up, for a limited
//! time.

use log_writer::Random;
use std::fs::File;
use std::io::{Result, Write};
use std::os::fd::OwnedFd;
use std::os::unix::net::UnixStream;
use std::path::Path;
use std::process::{Child, Command, Output, Stdio};
use std::time::Duration;

/// A run takes well under a second. On a busy machine it may take longer.
const SECONDS: &str = "60";
const SEED: u64 = 0x0065_7674_7800_0006;

/// What the program's standard input is.
#[derive(Clone, Copy)]
pub enum Source<'a> {
    /// A pipe, and the most bytes that are written to it at once.
    Pipe(&'a [u8], usize),
    File(&'a Path),
    /// A socket that has these bytes, and then an error in place of an end.
    Breaking(&'a [u8]),
    Closed,
}

/// What the program's standard output is.
#[derive(Clone, Copy)]
pub enum Sink<'a> {
    Pipe,
    File(&'a Path),
    /// A device that has no room.
    Full,
    /// A pipe whose other end is closed.
    Unread,
    Closed,
}

/// The program, below a shell that closes what is to be closed.
fn command(program: &Path, from: Source, to: Sink) -> Command {
    let input = if let Source::Closed = from { "<&-" } else { "" };
    let output = if let Sink::Closed = to { ">&-" } else { "" };
    // Without this the signal that nobody reads may end the program before its
    // start turns the signal off.
    let ignored = if let Sink::Unread = to { "trap '' PIPE;" } else { "" };
    let mut command = Command::new("timeout");
    // The system's texts for what fails are due in English.
    command.env("LC_ALL", "C").args(["--signal=KILL", SECONDS, "sh", "-c"]);
    command.arg(format!("{ignored} exec \"$0\" {input} {output}")).arg(program);
    command
}

/// The socket's ends. The program's end does not wait for bytes that are not
/// there but answers an error.
fn breaking(bytes: &[u8]) -> Result<(UnixStream, UnixStream)> {
    let (mut ours, theirs) = UnixStream::pair()?;
    theirs.set_nonblocking(true)?;
    // Nobody reads yet. Where the system keeps fewer bytes than these, writing
    // fails and does not wait for ever.
    ours.set_write_timeout(Some(Duration::from_secs(10)))?;
    ours.write_all(bytes)?;
    Ok((ours, theirs))
}

fn write_pieces(mut input: impl Write, bytes: &[u8], most: usize) {
    let random = &mut Random::new(SEED);
    let mut left = bytes;
    while !left.is_empty() {
        let (piece, rest) = left.split_at(random.between(1, most).min(left.len()));
        // A program that stops reading closes the pipe; its lines then tell.
        if input.write_all(piece).is_err() {
            return;
        }
        left = rest;
    }
}

fn feed(mut child: Child, from: Source) -> Result<Output> {
    std::thread::scope(|scope| {
        if let (Source::Pipe(bytes, most), Some(input)) = (from, child.stdin.take()) {
            scope.spawn(move || write_pieces(input, bytes, most));
        }
        child.wait_with_output()
    })
}

/// What the program writes, and how it ends.
pub fn run(program: &Path, from: Source, to: Sink) -> Result<Output> {
    let mut command = command(program, from, to);
    let mut kept_open = None;
    match from {
        Source::Pipe(..) => command.stdin(Stdio::piped()),
        Source::File(path) => command.stdin(File::open(path)?),
        Source::Breaking(bytes) => {
            let (ours, theirs) = breaking(bytes)?;
            kept_open = Some(ours);
            command.stdin(OwnedFd::from(theirs))
        }
        Source::Closed => command.stdin(Stdio::null()),
    };
    match to {
        Sink::Pipe | Sink::Unread => command.stdout(Stdio::piped()),
        Sink::File(path) => command.stdout(File::create(path)?),
        Sink::Full => command.stdout(File::create("/dev/full")?),
        Sink::Closed => command.stdout(Stdio::null()),
    };
    let mut child = command.stderr(Stdio::piped()).spawn()?;
    if let Sink::Unread = to {
        drop(child.stdout.take());
    }
    let mut output = feed(child, from)?;
    drop(kept_open);
    if let Sink::File(path) = to {
        output.stdout = std::fs::read(path)?;
    }
    Ok(output)
}
