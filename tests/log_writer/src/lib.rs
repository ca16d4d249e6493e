//! Writes what logs are made of, for the tests of either reader: fields,
//! records, chunks and binary XML, and EVT logs. It depends on neither reader.
#![forbid(unsafe_code)]

mod bytes;
pub mod evt;
mod headers;
mod random;
mod records;
mod stores;
mod writer;

pub use bytes::*;
pub use headers::*;
pub use random::Random;
pub use records::*;
pub use stores::*;
pub use writer::*;
