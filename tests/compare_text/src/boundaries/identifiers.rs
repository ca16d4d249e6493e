//! Binary values, GUIDs and security identifiers.

use super::Value;

pub fn binaries() -> Vec<Value> {
    let every_byte: Vec<u8> = (0..=255).collect();
    let mut values = vec![Value::new(0x0e, []), Value::new(0x0e, every_byte)];
    for length in [1, 2, 3, 16, 1_000, 65_535] {
        values.push(Value::new(0x0e, (0..length).map(|at| (at * 7) as u8).collect::<Vec<u8>>()));
    }
    values
}

pub fn guids() -> Vec<Value> {
    let mut values = vec![Value::new(0x0f, [0; 16]), Value::new(0x0f, [0xff; 16])];
    for from in [0x10, 0xa0, 0xf0] {
        values.push(Value::new(0x0f, (from..=from + 15).collect::<Vec<u8>>()));
    }
    // Each byte alone, so that its place in the text shows.
    for place in 0..16 {
        let mut bytes = [0; 16];
        bytes[place] = 0xcd;
        values.push(Value::new(0x0f, bytes));
    }
    values
}

/// A security identifier with the given revision, stated count, authority and
/// subauthorities.
fn sid(revision: u8, count: u8, authority: u64, subs: &[u32]) -> Value {
    let mut bytes = vec![revision, count];
    bytes.extend_from_slice(&authority.to_be_bytes()[2..]);
    bytes.extend(subs.iter().flat_map(|sub| sub.to_le_bytes()));
    Value::new(0x13, bytes)
}

pub fn security_identifiers() -> Vec<Value> {
    let mut values = Vec::new();
    let subs: Vec<u32> = (0..17).map(|index| 0x0102_0304 * (index + 1)).collect();
    for count in 0..=17 {
        values.push(sid(1, count, 5, &subs[..count as usize]));
    }
    let below = (1u64 << 32) - 1;
    for authority in
        [0, 1, 9, 10, 255, 256, below, below + 1, below + 2, (1 << 48) - 1, 0xabcd_ef01_2345]
    {
        values.push(sid(1, 0, authority, &[]));
        values.push(sid(1, 2, authority, &[0, u32::MAX]));
    }
    for revision in [0, 2, 0x10, 0xff] {
        values.push(sid(revision, 1, 5, &[18]));
    }
    // The stated count is not the one that the size gives.
    for count in [0, 1, 3, 14, 15, 16, 0xff] {
        values.push(sid(1, count, 5, &[18, 19]));
    }
    // Size and content wrong; then each size that is no 8 + 4k.
    values.push(sid(2, 16, 5, &[7; 16]));
    values.push(sid(1, 16, 5, &[7; 15]));
    values.push(sid(1, 15, 5, &[7; 16]));
    for size in 0..=80u8 {
        let mut bytes = vec![0; size.into()];
        let stated = [1, size.saturating_sub(8) / 4, 0, 0, 0, 0, 0, 5];
        bytes.iter_mut().zip(stated).for_each(|(byte, stated)| *byte = stated);
        values.push(Value::new(0x13, bytes));
    }
    values
}
