//! Inputs for comparing what both readers say of EVT logs, and the offsets at which
//! they are asked. Nothing here calls the first reader.
#![forbid(unsafe_code)]

pub mod cases;
pub mod hand;
pub mod offsets;
