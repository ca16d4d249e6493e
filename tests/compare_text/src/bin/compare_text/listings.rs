//! Compares the lines of the first reader's listing program with those of the
//! second reader, of the samples' listings, and by hand.

use crate::program::run;
use compare_text::files::File;
use second_reader::listing::listing;
use std::path::Path;
use support::difference::{first_difference, Difference, Outcome};
use support::tally::Tally;

pub const HEADER_LINE: &str = "evtx_list, header";
pub const CHUNK_LINE: &str = "evtx_list, chunk";
pub const RECORD_LINE: &str = "evtx_list, record";
const CALL: &str = "evtx_list";

/// The listing of a file.
pub fn compare(program: &Path, file: &File, tally: &mut Tally) -> Outcome {
    let differ = |found: String| {
        let asked = format!("of {} bytes", file.bytes.len());
        Err(Difference { call: CALL, asked, found })
    };
    let first = match run(program, CALL, &[], file) {
        Ok(output) if output.stderr.is_empty() => output.stdout,
        Ok(output) => {
            return differ(format!("standard error: {}", String::from_utf8_lossy(&output.stderr)));
        }
        Err(found) => return differ(found),
    };
    let second = listing(&file.bytes);
    for (whose, lines) in [("second reader", Some(&second)), ("by hand", file.expected.as_ref())] {
        if let Some(found) = lines.and_then(|lines| first_difference(&first, lines, whose)) {
            return differ(found);
        }
    }
    second.split(|byte| *byte == 10).filter(|line| !line.is_empty()).for_each(|line| {
        let (kind, number) = line_number(line);
        tally.note(kind, number);
    });
    Ok(())
}

/// Which kind of line it is, and the number it gives: 0 without a refusal.
fn line_number(line: &[u8]) -> (&'static str, u32) {
    let line = String::from_utf8_lossy(line);
    let kind = match line.split(' ').next() {
        Some("header") => HEADER_LINE,
        Some("chunk") => CHUNK_LINE,
        Some("rest") => return ("evtx_list, rest", 0),
        _ => RECORD_LINE,
    };
    let refused = line.rsplit_once("refused ").and_then(|(_, number)| number.parse().ok());
    (kind, refused.unwrap_or(0))
}
