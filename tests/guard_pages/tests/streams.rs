//! The calls for streams, with packet, store and list each at both edges of pages
//! that may not be touched, and the answers of the second reader.

use first_reader::answers::Answer;
use guard_pages::fenced::{Edge, Fenced, EDGES};
use log_writer::{put, Random, PACKET, STORE};
use second_reader::stream::{close, feed, Stream};
use std::collections::BTreeSet;
use support::damage::overlaps;
use support::generate::{dense_bytes, random_record, sound_chunk};

const SEED: u64 = 0x0065_7674_7800_000e;
/// Bytes of a list that no answer holds.
const KEPT: u8 = 0xf9;

/// A packet, or the end of the stream, on a store.
struct Asked<'a> {
    store: &'a [u8],
    packet: Option<&'a [u8]>,
}

impl Asked<'_> {
    /// The call with a list of so many numbers. Answers the store as it leaves it.
    fn call(
        &self,
        numbers: usize,
        packet_edge: Edge,
        store_edge: Edge,
        list_edge: Edge,
    ) -> Vec<u8> {
        let mut store = Fenced::new(self.store, store_edge);
        let mut list = Fenced::new(&vec![KEPT; 8 * numbers], list_edge);
        let (answer, due) = match self.packet {
            Some(packet) => {
                let mut input = Fenced::input(packet, packet_edge);
                let answer = first_reader::feed(&mut input, &mut store, &mut list);
                assert!(input.now() == packet && input.rest_kept());
                (answer, feed(self.store, packet, numbers / 2))
            }
            None => (first_reader::close(&mut store, &mut list), close(self.store, numbers / 2)),
        };
        let (number, listed) = match &due {
            Ok((listed, _)) => (0, listed.as_slice()),
            Err(number) => (*number, &[][..]),
        };
        assert_eq!(answer, Answer { number, length: listed.len() as u64 });
        let front: Vec<u8> = listed
            .iter()
            .flat_map(|(place, size)| [*place, *size])
            .flat_map(u64::to_le_bytes)
            .collect();
        assert!(list.holds(&front, KEPT));
        match due {
            Ok((_, after)) => assert!(Stream::of(store.now()) == after),
            Err(_) => assert!(store.now() == self.store),
        }
        assert!(store.rest_kept());
        store.now().to_vec()
    }

    /// The call with lists around the length that is needed, and all edges. Answers
    /// the store as the longest list leaves it.
    fn calls(&self) -> Vec<u8> {
        let due = match self.packet {
            Some(packet) => feed(self.store, packet, usize::MAX),
            None => close(self.store, usize::MAX),
        };
        let needed = due.map_or(0, |(listed, _)| 2 * listed.len());
        let lengths =
            BTreeSet::from([0, needed.saturating_sub(1), needed, needed + 1, needed + 30]);
        let mut left = self.store.to_vec();
        for numbers in lengths {
            for packet_edge in EDGES {
                self.call(numbers, packet_edge, Edge::Front, Edge::Back);
                left = self.call(numbers, packet_edge, Edge::Back, Edge::Front);
            }
        }
        left
    }
}

/// Feeds the bytes in packets of lengths by chance, and closes.
fn stream(random: &mut Random, mut bytes: &[u8], longest: usize) {
    let mut store = vec![0; STORE];
    while !bytes.is_empty() {
        let length = random.below(longest + 1).min(bytes.len());
        let (packet, rest) = bytes.split_at(length);
        store = Asked { store: &store, packet: Some(packet) }.calls();
        bytes = rest;
    }
    store = Asked { store: &store, packet: None }.calls();
    Asked { store: &store, packet: Some(&[0; 9]) }.calls();
    Asked { store: &store, packet: None }.calls();
}

#[test]
fn streams() {
    let random = &mut Random::new(SEED);
    for longest in [1, 3, 40, 300].repeat(6) {
        let bytes = dense_bytes(random, 30 * longest + 40);
        stream(random, &bytes, longest);
    }
    for _ in 0..3 {
        let mut bytes = [random_record(random, 65_024), sound_chunk(random)].concat();
        overlaps(random, &mut bytes[40_000..]);
        stream(random, &bytes, 30_000);
        stream(random, &bytes, PACKET);
    }
}

/// A store that says it holds so many bytes, from so many after its header on.
fn stated(random: &mut Random, from: u16, length: u16) -> Vec<u8> {
    let mut store = dense_bytes(random, STORE);
    put(&mut store, 0, &(random.below(1 << 40) as u64).to_le_bytes());
    put(&mut store, 8, &from.to_le_bytes());
    put(&mut store, 10, &length.to_le_bytes());
    store[12] = 0;
    store
}

#[test]
fn stores_of_any_bytes() {
    let random = &mut Random::new(SEED);
    for from in [0, 1, 500, 65_492, 65_519, 65_520, 65_521, 65_535] {
        for length in [0, 1, 28, 65_000, 65_519, 65_520, 65_535] {
            let store = stated(random, from, length);
            let packet_length = random.pick(&[0, 1, 29, 4_096, PACKET]);
            let packet = dense_bytes(random, packet_length);
            let left = Asked { store: &store, packet: Some(&packet) }.calls();
            Asked { store: &left, packet: None }.calls();
            Asked { store: &store, packet: None }.calls();
        }
    }
}

#[test]
fn lengths_that_are_refused() {
    let random = &mut Random::new(SEED);
    for length in [0, 1, 7, 12, 13, 16, 4_096, STORE - 1, STORE + 1] {
        let store = vec![0; length];
        for packet in [&[0; 9][..], &[], &[0x2a; PACKET], &[0x2a; PACKET + 1]] {
            Asked { store: &store, packet: Some(packet) }.calls();
        }
        Asked { store: &store, packet: None }.calls();
    }
    for packet in [PACKET, PACKET + 1, 2 * PACKET] {
        let store = stated(random, 9, 300);
        Asked { store: &store, packet: Some(&dense_bytes(random, packet)) }.calls();
    }
}
