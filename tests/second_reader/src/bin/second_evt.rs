//! Lists an EVT log from standard input with the second reader, in the lines of the
//! program for such logs.

use std::io::{Read, Write};

fn main() -> std::io::Result<()> {
    let mut log = Vec::new();
    std::io::stdin().lock().read_to_end(&mut log)?;
    std::io::stdout().lock().write_all(second_reader::evt_listing::listing(&log).as_bytes())
}
