//! The first thing in which the readers differ, and its report.

use std::fmt;
use std::path::Path;

/// How much of a line a report shows.
const SHOWN: usize = 300;

pub struct Difference {
    pub call: &'static str,
    pub asked: String,
    pub found: String,
}

impl fmt::Display for Difference {
    fn fmt(&self, out: &mut fmt::Formatter) -> fmt::Result {
        write!(out, "DIFFERENCE in {} {}\n{}", self.call, self.asked, self.found)
    }
}

pub type Outcome = Result<(), Difference>;

/// What a call is to write, or the number that it refuses with.
pub type Due = Result<Vec<u8>, u32>;

/// An input and how it came about.
pub struct Origin<'a> {
    pub kind: &'a str,
    pub seed: u64,
    /// Which of the inputs that this kind makes of this seed.
    pub part: usize,
    pub bytes: &'a [u8],
}

/// Prints the difference and the input's origin, and leaves the input at `path`.
pub fn report(difference: &Difference, origin: &Origin, path: &Path) {
    println!("{difference}");
    println!("kind: {}", origin.kind);
    println!("seed: {:#018x}, part {}, {} bytes", origin.seed, origin.part, origin.bytes.len());
    match std::fs::write(path, origin.bytes) {
        Ok(()) => println!("input: {}", path.display()),
        Err(error) => println!("input not written to {}: {error}", path.display()),
    }
}

/// Where two listings begin to differ, with both lines from there on.
pub fn first_difference(first: &[u8], other: &[u8], whose: &str) -> Option<String> {
    if first == other {
        return None;
    }
    let equal = first.iter().zip(other).take_while(|(one, two)| one == two).count();
    let line = other[..equal].iter().filter(|byte| **byte == 10).count();
    let shown = |lines: &[u8]| -> String {
        let from = lines[..equal].iter().rposition(|byte| *byte == 10).map_or(0, |at| at + 1);
        String::from_utf8_lossy(&lines[from..])
            .lines()
            .next()
            .unwrap_or("")
            .chars()
            .take(SHOWN)
            .collect()
    };
    let (mine, theirs) = (shown(first), shown(other));
    Some(format!(
        "byte {equal}, line {}, {} bytes and {} bytes\nfirst reader: {mine}\n{whose}: {theirs}",
        line + 1,
        first.len(),
        other.len()
    ))
}
