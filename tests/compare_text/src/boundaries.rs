//! Values at the boundaries of document 01's type table: every type at the
//! least and greatest it can hold, and just beyond what it may hold.

mod identifiers;
mod integers;
mod sizes;
mod strings;
mod times;

/// A value as an instance holds it: its descriptor's type, and its bytes.
#[derive(Clone, Debug, PartialEq, Eq)]
pub struct Value {
    pub kind: u8,
    pub bytes: Vec<u8>,
}

impl Value {
    pub fn new(kind: u8, bytes: impl Into<Vec<u8>>) -> Value {
        Value { kind, bytes: bytes.into() }
    }
}

/// The types of the table in which a value by itself has a text; BinXml, whose
/// text is that of a fragment, is not among them.
fn known(kind: u8) -> bool {
    matches!(kind, 0x00 | 0x01 | 0x03..=0x15)
}

/// Every boundary of every type, without the strings of one character.
pub fn all() -> Vec<Value> {
    let groups = [
        integers::signed_and_unsigned(),
        integers::bits(),
        integers::booleans(),
        identifiers::binaries(),
        identifiers::guids(),
        identifiers::security_identifiers(),
        times::file_times(),
        times::system_times(),
        strings::escapes_and_surrogates(),
        strings::closing_zeros(),
        strings::last_bytes(),
        sizes::wrong_and_right(),
        sizes::outside_the_table(),
    ];
    groups.concat()
}

/// A string of each UTF-16 unit alone, and of pairs at the ends of each plane.
pub fn single_characters() -> Vec<Value> {
    [strings::single_units(), strings::plane_ends()].concat()
}
