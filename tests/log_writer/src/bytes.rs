//! The sizes of a log's parts, and the fields in its bytes.

pub const HEADER: usize = 4_096;
pub const CHUNK: usize = 65_536;
/// The store of a stream.
pub const STORE: usize = 65_536;
/// The longest packet.
pub const PACKET: usize = 65_536;
/// Where a chunk's header ends and its first record begins.
pub const DATA: usize = 512;
/// What a record begins with.
pub const MAGIC: [u8; 4] = [0x2a, 0x2a, 0, 0];

pub fn put(bytes: &mut [u8], at: usize, part: &[u8]) {
    bytes[at..at + part.len()].copy_from_slice(part);
}

pub fn put_u32(bytes: &mut [u8], at: usize, number: u32) {
    put(bytes, at, &number.to_le_bytes());
}

pub fn get_u32(bytes: &[u8], at: usize) -> u32 {
    u32::from_le_bytes([bytes[at], bytes[at + 1], bytes[at + 2], bytes[at + 3]])
}

/// The numbers as little-endian fields, one after the other.
pub fn u16s(numbers: &[u16]) -> Vec<u8> {
    numbers.iter().flat_map(|number| number.to_le_bytes()).collect()
}

pub fn utf16(text: &str) -> Vec<u8> {
    text.encode_utf16().flat_map(u16::to_le_bytes).collect()
}
