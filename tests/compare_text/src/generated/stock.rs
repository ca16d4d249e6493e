//! Values to choose from, by type, and random strings.

use crate::boundaries::{self, Value};
use log_writer::{u16s, Random};
use second_reader::value::value_text;

const STRING: u8 = 0x01;
const LONGEST: usize = 120;
/// Units of which strings are made: letters, escapes, controls, units of two
/// and three bytes in UTF-8, surrogates.
const UNITS: [u16; 24] = [
    0x41, 0x62, 0x39, 0x20, 0x26, 0x3c, 0x3e, 0x22, 0x27, 9, 10, 13, 0, 0x1f, 0x7f, 0xe9, 0x7ff,
    0x800, 0x20ac, 0xfffd, 0xfffe, 0xd83d, 0xde00, 0xdbff,
];

/// The short values at the boundaries of their types; each list is by type.
pub struct Stock {
    right: Vec<Vec<Value>>,
    wrong: Vec<Vec<Value>>,
}

impl Stock {
    pub fn of_boundaries() -> Stock {
        let mut stock = Stock { right: empty_lists(), wrong: empty_lists() };
        for value in boundaries::all().into_iter().filter(|value| value.bytes.len() <= LONGEST) {
            let lists = match value_text(value.kind, &value.bytes) {
                Ok(_) => &mut stock.right,
                Err(_) => &mut stock.wrong,
            };
            lists[usize::from(value.kind)].push(value);
        }
        stock
    }

    /// The bytes of a value of the type, now and then of a wrong one.
    pub fn bytes(&self, random: &mut Random, kind: u8) -> Vec<u8> {
        let kind_at = usize::from(kind);
        let lists = if random.once_in(60) { &self.wrong } else { &self.right };
        match lists[kind_at].len() {
            0 => {
                let length = random.below(20);
                random.bytes(length)
            }
            count => {
                let mut bytes = lists[kind_at][random.below(count)].bytes.clone();
                if kind == STRING && random.once_in(2) {
                    bytes.extend(u16s(closing_zeros(random)));
                }
                bytes
            }
        }
    }
}

/// What a string may end in: a value drops it, a literal does not.
fn closing_zeros(random: &mut Random) -> &'static [u16] {
    &[0; 40][..random.pick(&[1, 1, 2, 3, 40])]
}

fn empty_lists() -> Vec<Vec<Value>> {
    (0..256).map(|_| Vec::new()).collect()
}

pub fn units(random: &mut Random) -> Vec<u16> {
    let length = random.pick(&[0, 1, 1, 2, 3, 5, 9, 30]);
    let mut units: Vec<u16> = (0..length)
        .map(|_| if random.once_in(8) { random.number() as u16 } else { random.pick(&UNITS) })
        .collect();
    if random.once_in(4) {
        units.extend(closing_zeros(random));
    }
    units
}

/// The types of an instance's values: mostly those of the table.
pub fn kinds(random: &mut Random) -> Vec<u8> {
    let count = random.pick(&[0, 1, 1, 2, 3, 4, 6, 9, 18]);
    (0..count)
        .map(|_| match random.below(60) {
            0 => random.number() as u8,
            1..=9 => 0x21,
            10..=19 => 0x01,
            20..=27 => 0x00,
            _ => {
                random.pick(&[3, 4, 5, 6, 7, 8, 9, 10, 11, 12, 13, 14, 15, 16, 17, 18, 19, 20, 21])
            }
        })
        .collect()
}

const LETTERS: &[u8] = b"ABCXYZabcxyz_:";
const LATER: &[u8] = b"ABCXYZabcxyz_:0189-.";

pub fn name(random: &mut Random) -> String {
    let length = random.pick(&[0, 0, 1, 3, 8]);
    let first = char::from(random.pick(LETTERS));
    let later = (0..length).map(|_| char::from(random.pick(LATER)));
    std::iter::once(first).chain(later.collect::<Vec<char>>()).collect()
}
