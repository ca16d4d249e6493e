//! Memory between pages that may not be touched, so that a call that reads or
//! writes outside what it is lent ends the program.

pub mod fenced;
pub mod outputs;
