//! Writes value vectors for a program that turns values into text, and the
//! lines expected of it by the second reader.
//!
//! `vectors LIST LINES` writes to LIST each vector as type (1 byte), size (2
//! bytes, little-endian) and bytes, and to LINES for each a line ended by byte
//! 10: the text, or `refused 11` with `type`, `size` or `content`.

use compare_text::boundaries::{all, single_characters, Value};
use second_reader::value::{value_text, Cause};
use std::process::ExitCode;

fn vector(value: &Value) -> Vec<u8> {
    let size = u16::try_from(value.bytes.len()).expect("a size of two bytes");
    [&[value.kind], &size.to_le_bytes()[..], &value.bytes].concat()
}

/// No text holds byte 10, since a string's is written as an escape.
fn line(value: &Value) -> String {
    let refused = |cause: &str| format!("refused 11 {cause}");
    let text = match value_text(value.kind, &value.bytes) {
        Ok(text) => text,
        Err(Cause::Type) => refused("type"),
        Err(Cause::Size) => refused("size"),
        Err(Cause::Content) => refused("content"),
    };
    text + "\n"
}

fn main() -> ExitCode {
    let arguments: Vec<String> = std::env::args().skip(1).collect();
    let [list_path, lines_path] = arguments.as_slice() else {
        eprintln!("vectors LIST LINES");
        return ExitCode::FAILURE;
    };
    let values = [all(), single_characters()].concat();
    let list: Vec<u8> = values.iter().flat_map(vector).collect();
    let lines: String = values.iter().map(line).collect();
    for (path, bytes) in [(list_path, list.as_slice()), (lines_path, lines.as_bytes())] {
        if let Err(error) = std::fs::write(path, bytes) {
            eprintln!("{path}: {error}");
            return ExitCode::FAILURE;
        }
    }
    println!("{} vectors", values.len());
    ExitCode::SUCCESS
}
