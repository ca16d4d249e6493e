//! The text of single values at the edge of pages that may not be touched: see `tests`.
#![forbid(unsafe_code)]
