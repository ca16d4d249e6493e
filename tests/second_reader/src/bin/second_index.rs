//! Indexes a log from standard input with the second reader, in the lines of the
//! indexing program; with a number as its argument, those of the entries that have it.

use std::io::{Read, Write};

fn main() -> std::io::Result<()> {
    let number = std::env::args().nth(1);
    let mut log = Vec::new();
    std::io::stdin().lock().read_to_end(&mut log)?;
    let written = second_reader::indexing::indexing(&log, number.as_deref());
    std::io::stdout().lock().write_all(written.lines.as_bytes())?;
    std::io::stderr().lock().write_all(written.errors("standard input").as_bytes())
}
