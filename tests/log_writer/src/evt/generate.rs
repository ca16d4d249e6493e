//! Events and logs by chance.

use super::event::Event;
use super::parts::{END_RECORD, HEADER};
use super::service::Service;
use crate::Random;

/// Units whose text is not the character itself, or that are at a bound of what is.
const ODD_UNITS: [u16; 24] = [
    0x01, 0x08, 0x09, 0x0a, 0x0b, 0x0d, 0x1f, 0x22, 0x26, 0x27, 0x3c, 0x3e, 0x7f, 0x80, 0x7ff,
    0x800, 0xd7ff, 0xd800, 0xdbff, 0xdc00, 0xdfff, 0xe000, 0xfffd, 0xfffe,
];

/// Up to so many units, none of them zero.
pub fn random_string(random: &mut Random, most: usize) -> Vec<u16> {
    let unit = |random: &mut Random| match random.below(6) {
        0 => random.pick(&ODD_UNITS),
        1 => random.between(1, 0xffff) as u16,
        _ => random.between(0x20, 0x7e) as u16,
    };
    (0..random.below(most + 1)).map(|_| unit(random)).collect()
}

/// Numbers at the bounds of so many bits, or any.
fn random_number(random: &mut Random, bits: u32) -> u32 {
    let all = u32::MAX >> (32 - bits);
    let any = random.number() as u32 & all;
    random.pick(&[0, 1, all >> 1, all / 2 + 1, all - 1, all, any, any, any])
}

pub fn random_event(random: &mut Random, most_units: usize) -> Event {
    let subs = random.pick(&[0, 0, 1, 5]);
    let mut sid = if subs == 0 { Vec::new() } else { random.bytes(8 + 4 * subs) };
    // Revision and count are right: other readers refuse a record for them.
    [1, subs as u8].iter().zip(&mut sid).for_each(|(due, byte)| *byte = *due);
    let strings = random.pick(&[0, 1, 1, 2, 3, 7]);
    let data = random.pick(&[0, 0, 1, 2, 3, 20]);
    Event {
        generated: random_number(random, 32),
        written: random_number(random, 32),
        id: random_number(random, 32),
        kind: random_number(random, 16) as u16,
        category: random_number(random, 16) as u16,
        source: "Panel 7"[..random.below(8)].to_string(),
        computer: "PC"[..random.below(3)].to_string(),
        sid,
        strings: (0..strings).map(|_| random_string(random, most_units)).collect(),
        data: random.bytes(data),
    }
}

/// A log of so many bytes behind its header, opened some records ago. It holds from
/// no records to many more than fit.
pub fn random_log(random: &mut Random, behind: usize) -> Service {
    let length = HEADER + behind.max(END_RECORD) / 4 * 4;
    let number = random.pick(&[1, 1, 0x4ffc, u32::MAX - 2]);
    let mut log = Service::new(length, number);
    let bytes_each = random.pick(&[20, 60, 200]);
    let events = random.below(3 + behind / bytes_each);
    for _ in 0..events {
        let most_units = random.pick(&[0, 3, 8, behind / 20]);
        log.write(random_event(random, most_units));
        if random.once_in(5) {
            log.open();
        }
    }
    log
}
