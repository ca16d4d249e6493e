//! A call made to both readers on the same lent memory, and their answers
//! compared: the first reader through its C interface, the second one directly.

pub mod evt;
pub mod headers;
pub mod indexes;
pub mod nexts;
pub mod records;
pub mod searches;
pub mod streams;
pub mod texts;
pub mod trial;
