//! Inputs for comparing the texts of both readers. Nothing here calls the
//! first reader.
#![forbid(unsafe_code)]

pub mod boundaries;
pub mod files;
pub mod generated;
pub mod hand;
pub mod question;
