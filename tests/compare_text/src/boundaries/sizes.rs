//! Sizes that a type does not allow, beside those it does, and types that the
//! table does not have.

use super::{known, Value};

/// Sizes around every size of the table.
const SIZES: [usize; 24] =
    [0, 1, 2, 3, 4, 5, 6, 7, 8, 9, 10, 11, 12, 15, 16, 17, 18, 24, 32, 64, 256, 260, 264, 65_535];

pub fn wrong_and_right() -> Vec<Value> {
    let mut values = Vec::new();
    for kind in (0..=255).filter(|kind| known(*kind)) {
        for size in SIZES {
            for filling in [0x00, 0x01, 0xff] {
                values.push(Value::new(kind, vec![filling; size]));
            }
        }
    }
    values
}

/// BinXml is in the table, and so not here.
pub fn outside_the_table() -> Vec<Value> {
    let mut values = Vec::new();
    for kind in (0..=255).filter(|kind| !known(*kind) && *kind != 0x21) {
        for size in [0, 1, 2, 4, 8, 16] {
            values.push(Value::new(kind, vec![0x41; size]));
        }
    }
    values
}
