//! Numbers: signed and unsigned of each width, hexadecimal, real, Boolean.

use super::Value;

/// Signed type, unsigned type and width of each pair in the table.
const WIDTHS: [(u8, u8, usize); 4] =
    [(0x03, 0x04, 1), (0x05, 0x06, 2), (0x07, 0x08, 4), (0x09, 0x0a, 8)];
/// Types whose text is made of hexadecimal digits, with their widths.
const HEX: [(u8, usize); 6] = [(0x0b, 4), (0x0c, 8), (0x10, 4), (0x10, 8), (0x14, 4), (0x15, 8)];

fn cut(number: u64, width: usize) -> Vec<u8> {
    number.to_le_bytes()[..width].to_vec()
}

/// Bit patterns around 0, the sign bit, all ones, and where the text becomes
/// longer: each power of 10 and of 16, and one below, also negative.
fn patterns(width: usize) -> Vec<u64> {
    let sign = 1u64 << (8 * width - 1);
    let mut numbers = vec![0, 1, 2, sign, sign + 1, sign - 1, u64::MAX, u64::MAX - 1];
    for exponent in 1..20 {
        let power = 10u64.pow(exponent);
        numbers.extend([power, power - 1, power.wrapping_neg(), (power - 1).wrapping_neg()]);
    }
    for digit in 1..16 {
        let power = 1u64 << (4 * digit);
        numbers.extend([power, power - 1, 9 * power, 10 * power, 15 * power]);
    }
    // Each byte alone, so that no two can be exchanged unseen.
    numbers.extend((0..8).map(|byte| 0x9a << (8 * byte)));
    numbers.push(0x8877_6655_4433_2211);
    let mask = u64::MAX >> (64 - 8 * width);
    numbers.iter_mut().for_each(|number| *number &= mask);
    numbers.sort_unstable();
    numbers.dedup();
    numbers
}

pub fn signed_and_unsigned() -> Vec<Value> {
    let mut values = Vec::new();
    for byte in 0..=255 {
        values.extend([Value::new(0x03, [byte]), Value::new(0x04, [byte])]);
    }
    for (signed, unsigned, width) in WIDTHS {
        for number in patterns(width) {
            let bytes = cut(number, width);
            values.extend([Value::new(signed, bytes.clone()), Value::new(unsigned, bytes)]);
        }
    }
    values
}

pub fn bits() -> Vec<Value> {
    let mut values = Vec::new();
    for (kind, width) in HEX {
        values
            .extend(patterns(width).into_iter().map(|number| Value::new(kind, cut(number, width))));
    }
    // 1, -0, infinity, not a number, and the smallest of both real forms.
    for real in [1.0f32, -0.0, f32::INFINITY, f32::NAN, f32::from_bits(1)] {
        values.push(Value::new(0x0b, real.to_bits().to_le_bytes()));
    }
    for real in [1.0f64, -0.0, f64::INFINITY, f64::NAN, f64::from_bits(1)] {
        values.push(Value::new(0x0c, real.to_bits().to_le_bytes()));
    }
    values
}

/// 0, and each bit of the four bytes alone.
pub fn booleans() -> Vec<Value> {
    let mut values = vec![Value::new(0x0d, [0; 4]), Value::new(0x0d, [0xff; 4])];
    values.extend((0..32).map(|bit| Value::new(0x0d, (1u32 << bit).to_le_bytes())));
    values
}
