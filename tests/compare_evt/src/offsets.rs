//! The offsets at which a log is asked for records.

use log_writer::Random;
use second_reader::evt::Log;
use std::collections::BTreeSet;

/// Files up to this length are asked at every offset.
const SMALL: usize = 1_024;
/// Files above this length cost much per call and are asked for little.
const LARGE: usize = 1 << 20;
/// Of longer files, how many records and other offsets are asked for.
const SOME: usize = 60;

pub fn worth_asking(file: &[u8], seed: u64) -> BTreeSet<u64> {
    let random = &mut Random::new(seed);
    let length = file.len() as u64;
    let mut offsets = BTreeSet::from([0, 47, 48, length.wrapping_sub(1), length]);
    if file.len() <= SMALL {
        offsets.extend(0..length + 50);
    } else {
        let most = if file.len() > LARGE { 2 } else { SOME };
        offsets.extend(records(file, random, most));
        offsets.extend((0..most).map(|_| random.below(file.len()) as u64));
    }
    if file.len() <= LARGE {
        // Cut to 16, 32 or 63 bits, or counted round the end, these are others.
        let far = [1 << 16, 1 << 31, 1 << 32, 1 << 63].map(|far: u64| far + 48);
        offsets.extend(far);
        offsets.extend([length.wrapping_mul(2).wrapping_sub(48), u64::MAX, u64::MAX - 47]);
        offsets.extend([random.number(), length + random.below(1 << 20) as u64]);
    }
    offsets
}

/// Records by chance and, unless the file is large, the offsets beside them.
fn records(file: &[u8], random: &mut Random, most: usize) -> Vec<u64> {
    let Ok(log) = Log::of(file) else { return Vec::new() };
    let magics = file.windows(4).enumerate().filter(|(_, bytes)| bytes == b"LfLe");
    let offsets = magics.filter_map(|(at, _)| (at as u64).checked_sub(4));
    let records = offsets.filter(|offset| log.record(*offset).is_ok()).collect();
    let chosen = random.thin_out(records, most);
    if file.len() > LARGE {
        return chosen;
    }
    let nexts = chosen.iter().filter_map(|offset| Some(log.record(*offset).ok()?.next));
    chosen.iter().flat_map(|at| [at - 1, *at, at + 1]).chain(nexts).collect()
}
