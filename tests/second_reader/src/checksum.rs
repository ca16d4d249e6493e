//! CRC-32 of ISO 3309, bit by bit: reflected polynomial 0xEDB88320, start
//! value and final inversion all ones.

/// The checksum of the parts, taken as one sequence of bytes.
pub fn crc32(parts: &[&[u8]]) -> u32 {
    let mut register = u32::MAX;
    for byte in parts.iter().flat_map(|part| part.iter()) {
        register ^= u32::from(*byte);
        for _ in 0..8 {
            let out = register & 1;
            register >>= 1;
            if out == 1 {
                register ^= 0xEDB8_8320;
            }
        }
    }
    !register
}
