//! The numbers that a call may answer, as an enum.

#[derive(Clone, Copy, Debug, PartialEq, Eq)]
pub enum Refusal {
    Length,
    Magic,
    Version,
    HeaderField,
    HeaderChecksum,
    DataChecksum,
    NoRecord,
    Malformed,
    Pointer,
    Substitution,
    Value,
    Limit,
    Room,
}

/// In the order of their numbers, from 1 on.
const REFUSALS: [Refusal; 13] = [
    Refusal::Length,
    Refusal::Magic,
    Refusal::Version,
    Refusal::HeaderField,
    Refusal::HeaderChecksum,
    Refusal::DataChecksum,
    Refusal::NoRecord,
    Refusal::Malformed,
    Refusal::Pointer,
    Refusal::Substitution,
    Refusal::Value,
    Refusal::Limit,
    Refusal::Room,
];

/// What a call gives, if its number is 0.
pub(crate) fn outcome<T>(number: u32, value: T) -> Result<T, Refusal> {
    match number {
        0 => Ok(value),
        _ => Err(REFUSALS[number as usize - 1]),
    }
}
