//! The offsets at which an input is asked for records: every whole record and
//! its neighbours, the bounds of the input, numbers near 2^64, and others.

use log_writer::Random;
use second_reader::record::whole_record;
use std::collections::BTreeSet;

/// More whole records than the 2,322 of a full chunk are asked for in part.
const MOST_RECORDS: usize = 2_400;
/// Inputs above this length cost much per call and are asked for little.
const LARGE: usize = 1 << 20;

pub fn worth_asking(bytes: &[u8], seed: u64) -> BTreeSet<u64> {
    let mut random = Random::new(seed);
    let length = bytes.len() as u64;
    let mut offsets = BTreeSet::new();
    let records = chosen_records(bytes, &mut random);
    for (start, size) in &records {
        for offset in [start.wrapping_sub(1), *start, start + 1, start + size - 1, start + size] {
            offsets.insert(offset);
        }
    }
    // An offset cut to 16, 32 or 63 bits would find these records.
    for (start, _) in records.iter().take(3) {
        for far in [1 << 16, 1 << 31, 1 << 32, 1 << 63] {
            offsets.insert(start + far);
        }
    }
    offsets.extend([0, 511, 512, 513, 65_508, 65_535, 65_536]);
    offsets.extend((0..30).map(|back| u64::MAX - back));
    offsets.extend([u64::MAX - 511, u64::MAX - 65_535, 1 << 63]);
    for near in [length, length.wrapping_sub(28), length.wrapping_sub(4)] {
        offsets.extend([near.wrapping_sub(1), near, near.wrapping_add(1)]);
    }
    for _ in 0..6 {
        offsets.insert(random.below(bytes.len() + 64) as u64);
        offsets.insert(random.number());
    }
    if bytes.len() > LARGE {
        return offsets.into_iter().filter(|_| random.once_in(4)).collect();
    }
    offsets
}

/// Start and size of whole records, inside other records or not.
fn chosen_records(bytes: &[u8], random: &mut Random) -> Vec<(u64, u64)> {
    let most = if bytes.len() > LARGE { 10 } else { MOST_RECORDS };
    let records = (0..bytes.len() as u64)
        .filter_map(|start| whole_record(bytes, start).map(|size| (start, size)))
        .collect();
    random.thin_out(records, most)
}
