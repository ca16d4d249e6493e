//! Stores that no call may have left, and packets for them.

use super::Input;
use log_writer::{put, store_with, Random, PACKET, STORE, STORE_HEADER};
use support::generate::{dense_bytes, random_record};

const MOST: u64 = 1 << 40;

/// A length of a packet: none, some, and around the most.
fn packet(random: &mut Random) -> Vec<u8> {
    let length = random.pick(&[0, 1, 2, 3, 28, 100, 1_500, 40_000, PACKET - 1, PACKET, PACKET + 1]);
    dense_bytes(random, length)
}

fn total(random: &mut Random) -> u64 {
    let near = random.below(70_000) as u64;
    match random.below(8) {
        0 => near,
        1 => random.pick(&[0, 1, 15]),
        2 => MOST - near,
        3 => random.pick(&[MOST - PACKET as u64, MOST - 1, MOST, MOST + 1]),
        4 => random.pick(&[MOST | 5, 1 << 41, 1 << 63 | 5, u64::MAX]),
        5 => random.number(),
        _ => random.number() % MOST,
    }
}

/// Where the held bytes begin, or how many they are: inside the store, around
/// its end, and any.
fn extent(random: &mut Random) -> u16 {
    let bound = (STORE - STORE_HEADER) as u16;
    match random.below(4) {
        0 => random.pick(&[0, 1, 27, 28, 500]),
        1 => bound - random.pick(&[0, 1, 28, 400]),
        2 => random.pick(&[bound + 1, u16::MAX]),
        _ => random.number() as u16,
    }
}

/// Any bytes, under any total, beginning and length; one in eight is closed, and
/// one in sixteen has another length.
pub fn any(random: &mut Random, _: usize) -> Input {
    let mut store =
        if random.once_in(4) { random.bytes(STORE) } else { dense_bytes(random, STORE) };
    put(&mut store, 0, &total(random).to_le_bytes());
    put(&mut store, 8, &extent(random).to_le_bytes());
    put(&mut store, 10, &extent(random).to_le_bytes());
    store[12] = if random.once_in(8) { random.pick(&[1, 2, 0x80, 0xff]) } else { 0 };
    if random.once_in(16) {
        let length = random.pick(&[0, 1, 12, 13, 16, 17, STORE - 1, STORE + 1, 2 * STORE]);
        store.resize(length, 0);
    }
    Input::Store { store, packet: packet(random) }
}

/// A store that holds the front of a record, from any place on, and a packet
/// with its rest, which may have a wrong byte.
pub fn likely(random: &mut Random, _: usize) -> Input {
    let size = random.pick(&[28, 29, 300, 4_000, 60_000, 65_023, 65_024]);
    let mut record = random_record(random, size);
    if random.once_in(2) {
        let wrong = size - random.between(1, 4);
        record[wrong] ^= 1 << random.below(8);
    }
    let kept = size - random.pick(&[1, 2, 3, 4, 5, 20, 27, size / 2]);
    let room = STORE - STORE_HEADER - kept;
    let from = random.pick(&[0, 1, room / 2, room - 1, room]);
    let total = random.below(1 << 30) as u64 + kept as u64;
    let more = packet(random);
    let mut rest = [&record[kept..], &more].concat();
    rest.truncate(random.pick(&[0, 1, 4, 28, PACKET, PACKET]));
    Input::Store { store: store_with(total, from, &record[..kept]), packet: rest }
}
