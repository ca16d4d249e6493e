//! What the comparing programs need: sound and damaged files, guarded memory,
//! the offsets worth asking for, and the report of a difference.
#![forbid(unsafe_code)]

pub mod damage;
pub mod difference;
pub mod generate;
pub mod kinds;
pub mod lent;
pub mod offsets;
pub mod run;
pub mod samples;
pub mod seed;
pub mod tally;
