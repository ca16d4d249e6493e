//! Calls on stores set by hand, with the answers worked out by hand, to which
//! both readers are held.

use compare::streams::{Call, Fed, CLOSE, FEED};
use log_writer::{closed, frame, put, store_with, STORE};
use second_reader::stream::{close, feed, Called, Listed, Stream};
use support::difference::{Difference, Outcome};
use support::tally::Tally;

const MOST: u64 = 1_099_511_627_776;

/// A call, how many numbers its list has, and what is due.
pub struct ByHand {
    pub name: &'static str,
    store: Vec<u8>,
    /// None for the closing call.
    packet: Option<Vec<u8>>,
    numbers: usize,
    due: Called,
}

impl ByHand {
    /// The store, and the packet behind it.
    pub fn bytes(&self) -> Vec<u8> {
        [&self.store[..], self.packet.as_deref().unwrap_or(&[])].concat()
    }
}

pub fn compare(case: &ByHand, tally: &mut Tally) -> Outcome {
    let ByHand { store, packet, numbers, due, .. } = case;
    let (call, name, second) = match packet {
        Some(packet) => {
            (Call::Feed { packet, behind: &[] }, FEED, feed(store, packet, numbers / 2))
        }
        None => (Call::Close, CLOSE, close(store, numbers / 2)),
    };
    if second != *due {
        let found = format!("second reader: {second:?}\nby hand:       {due:?}");
        return Err(Difference { call: name, asked: case.name.to_string(), found });
    }
    Fed::new(store, 0, tally).with_list(call, *numbers, due)
}

pub fn all() -> Vec<ByHand> {
    let calls = [lengths(), totals(), order(), rooms(), most_records()];
    let contents = [open_ends(), second_sizes(), any_stores()];
    calls.into_iter().chain(contents).flatten().collect()
}

/// A packet with a list of 8 numbers.
fn fed(name: &'static str, store: Vec<u8>, packet: &[u8], due: Called) -> ByHand {
    ByHand { name, store, packet: Some(packet.to_vec()), numbers: 8, due }
}

/// The closing call with a list of 8 numbers.
fn closing(name: &'static str, store: Vec<u8>, due: Called) -> ByHand {
    ByHand { name, store, packet: None, numbers: 8, due }
}

fn with_list(numbers: usize, case: ByHand) -> ByHand {
    ByHand { numbers, ..case }
}

fn left(listed: &[Listed], total: u64, held: &[u8]) -> Called {
    Ok((listed.to_vec(), Stream { total, closed: false, held: held.to_vec() }))
}

fn ended(listed: &[Listed], total: u64) -> Called {
    Ok((listed.to_vec(), Stream { total, closed: true, held: Vec::new() }))
}

/// A store that says how many bytes were taken, and holds none of them.
fn taken(total: u64) -> Vec<u8> {
    store_with(total, 0, &[])
}

/// The smallest record.
fn record() -> Vec<u8> {
    let mut bytes = vec![0x11; 28];
    frame(&mut bytes, 0, 28);
    bytes
}

fn lengths() -> Vec<ByHand> {
    let store = |length| vec![0; length];
    let mut cases = vec![
        fed("an empty packet", taken(0), &[], left(&[], 0, &[])),
        fed("a packet of 65,536 bytes", taken(0), &[0; 65_536], left(&[], 65_536, &[])),
        fed("a packet of 65,537 bytes", taken(0), &[0; 65_537], Err(1)),
        closing("a store of zeros", taken(0), ended(&[], 0)),
    ];
    for length in [0, 12, 13, 16, 65_535, 65_537] {
        cases.push(fed("a store of another length", store(length), &[], Err(1)));
        cases.push(closing("a store of another length, closing", store(length), Err(1)));
    }
    cases
}

fn totals() -> Vec<ByHand> {
    let last = store_with(MOST - 1, 0, &record()[..27]);
    vec![
        fed("2^40 - 1 and 1", taken(MOST - 1), &[0], left(&[], MOST, &[])),
        fed("2^40 - 1 and 2", taken(MOST - 1), &[0; 2], Err(1)),
        fed("2^40 and none", taken(MOST), &[], left(&[], MOST, &[])),
        fed("2^40 and 1", taken(MOST), &[0], Err(1)),
        fed("2^40 + 1 and none", taken(MOST + 1), &[], Err(1)),
        fed("2^40 - 65,536 and 65,536", taken(MOST - 65_536), &[0; 65_536], left(&[], MOST, &[])),
        fed("2^40 - 65,535 and 65,536", taken(MOST - 65_535), &[0; 65_536], Err(1)),
        fed("2^64 - 1 and 1", taken(u64::MAX), &[0], Err(1)),
        fed("2^63 and none", taken(1 << 63), &[], Err(1)),
        closing("2^40 - 1, closing", taken(MOST - 1), ended(&[], MOST - 1)),
        closing("2^40, closing", taken(MOST), ended(&[], MOST)),
        closing("2^40 + 1, closing", taken(MOST + 1), Err(1)),
        closing("2^64 - 1, closing", taken(u64::MAX), Err(1)),
        // The place takes 40 bits.
        fed("a record up to 2^40", last, &[0], left(&[(MOST - 28, 28)], MOST, &[])),
    ]
}

/// 1 comes before 14, and 14 before 13.
fn order() -> Vec<ByHand> {
    let whole = || store_with(28, 0, &record());
    let closed_with = |byte: u8| {
        let mut store = whole();
        store[12] = byte;
        store
    };
    vec![
        fed("closed and a long packet", closed(taken(0)), &[0; 65_537], Err(1)),
        fed("closed and beyond 2^40", closed(taken(MOST)), &[0], Err(1)),
        fed("closed and another length", closed(taken(0))[..65_535].to_vec(), &[], Err(1)),
        closing("closed and beyond 2^40, closing", closed(taken(MOST + 1)), Err(1)),
        closing("closed and another length, closing", closed(taken(0))[1..].to_vec(), Err(1)),
        with_list(0, fed("a long packet and no room", whole(), &[0; 65_537], Err(1))),
        with_list(0, fed("closed and no room", closed(whole()), &[], Err(14))),
        with_list(0, closing("closed and no room, closing", closed(whole()), Err(14))),
        fed("closed by 1", closed_with(1), &[0], Err(14)),
        fed("closed by 80", closed_with(0x80), &[0], Err(14)),
        closing("closed by ff, closing", closed_with(0xff), Err(14)),
        fed("closed, and a packet of 65,536 bytes", closed(taken(0)), &[0; 65_536], Err(14)),
        fed("closed at 2^40", closed(taken(MOST)), &[], Err(14)),
        fed("a whole record that is held", whole(), &[], left(&[(0, 28)], 28, &[])),
    ]
}

/// Two numbers for each record; an odd one is no room.
fn rooms() -> Vec<ByHand> {
    let two = record().repeat(2);
    let both = left(&[(5, 28), (33, 28)], 61, &[]);
    let fed = |numbers, due| with_list(numbers, fed("two records", taken(5), &two, due));
    let half = store_with(100, 9, &[&[0x2a], &record()[..]].concat());
    let closing = |numbers, due| with_list(numbers, closing("one record", half.clone(), due));
    let mut cases: Vec<ByHand> = (0..4).map(|numbers| fed(numbers, Err(13))).collect();
    cases.extend([4, 5, 9_360].map(|numbers| fed(numbers, both.clone())));
    cases.extend([0, 1].map(|numbers| closing(numbers, Err(13))));
    cases.extend([2, 3].map(|numbers| closing(numbers, ended(&[(72, 28)], 100))));
    cases
}

/// Packets that end in a beginning: it is held while later bytes can complete it.
fn open_ends() -> Vec<ByHand> {
    const MAGIC: [u8; 4] = [0x2a, 0x2a, 0, 0];
    let case = |end: &[u8], held: usize| {
        let packet = [&[7, 7, 7], end].concat();
        let due = left(&[], packet.len() as u64, &packet[packet.len() - held..]);
        fed("an end that is open or not", taken(0), &packet, due)
    };
    let sized = |size: &[u8], held: usize| case(&[&MAGIC, size].concat(), held);
    vec![
        case(&[0x2a], 1),
        case(&[0x2a, 0x2a], 2),
        case(&[0x2a, 0x2a, 0x2a], 2),
        case(&[0x2a, 0x2a, 0], 3),
        case(&[0x2a, 0x2a, 1], 0),
        case(&[0x2a, 0], 0),
        case(&MAGIC, 4),
        case(&[0x2a, 0x2a, 0, 1], 0),
        sized(&[27], 5),
        sized(&[0], 5),
        sized(&[27, 0], 0),
        sized(&[28, 0], 6),
        sized(&[0, 254], 6),
        sized(&[1, 254], 0),
        sized(&[0x2a, 0xff], 0),
        sized(&[28, 0, 0], 7),
        sized(&[28, 0, 1], 0),
        sized(&[28, 0, 0, 0], 8),
        sized(&[28, 0, 0, 1], 0),
        sized(&[28, 0, 0, 0x2a], 1),
    ]
}

/// A record of 100 bytes with the smallest at 40 in it. Each byte of its second
/// size comes alone; the wrong one lists what stands in it.
fn second_sizes() -> Vec<ByHand> {
    let mut outer = vec![0x11; 100];
    frame(&mut outer, 0, 100);
    put(&mut outer, 40, &record());
    let mut cases = Vec::new();
    for at in 96..100 {
        let store = |front: usize| store_with(1_000 + at as u64, front, &outer[..at]);
        let after = 1_001 + at as u64;
        let right = match at {
            99 => left(&[(1_000, 100)], after, &[]),
            _ => left(&[], after, &outer[..at + 1]),
        };
        cases.push(fed("a right byte of the second size", store(0), &outer[at..at + 1], right));
        let wrong = left(&[(1_040, 28)], after, &[]);
        cases.push(fed("a wrong byte of the second size", store(64), &[0xee], wrong));
        let end = ended(&[(1_040, 28)], 1_000 + at as u64);
        cases.push(closing("a second size that does not come", store(65_400), end));
    }
    cases
}

/// Held bytes that leave the store, more of them than were taken, and other
/// content that no call leaves.
fn any_stores() -> Vec<ByHand> {
    let header = |store: &mut [u8], from: u16, length: u16| {
        put(store, 8, &from.to_le_bytes());
        put(store, 10, &length.to_le_bytes());
    };
    let mut clipped = store_with(500, 65_492, &record());
    header(&mut clipped, 65_492, 65_535);
    let mut behind = clipped.clone();
    header(&mut behind, 65_521, 30);
    let full = store_with(65_520, 0, &vec![0; 65_520]);
    let mut unread = closed(taken(9));
    put(&mut unread, 12, &[0, 1, 2, 3, 0x2a, 0x2a]);
    let few = || store_with(5, 0, &[&[0; 3], &record()[..]].concat());
    vec![
        fed("held bytes cut at the end", clipped.clone(), &[9], left(&[(472, 28)], 501, &[])),
        closing("held bytes cut at the end, closing", clipped, ended(&[(472, 28)], 500)),
        fed("held bytes behind the store", behind, &record(), left(&[(500, 28)], 528, &[])),
        fed("65,520 bytes held", full, &[0x2a], left(&[], 65_521, &[0x2a])),
        fed("bytes that are not read", unread, &[9], left(&[], 10, &[])),
        fed("more held than was taken", few(), &record(), left(&[(3, 28), (31, 28)], 33, &[])),
        closing("more held than was taken, closing", few(), ended(&[(3, 28)], 5)),
        closing("ff in every byte", vec![0xff; STORE], Err(1)),
    ]
}

/// As many records as a call can list: 28 bytes each, in 65,520 held ones and a
/// packet of 65,536.
fn most_records() -> Vec<ByHand> {
    let store = || store_with(65_520, 0, &record().repeat(2_340));
    let packet = [record().repeat(2_340), vec![0; 16]].concat();
    let listed = |count: u64| -> Vec<Listed> { (0..count).map(|index| (28 * index, 28)).collect() };
    let fed = |numbers, due| {
        with_list(numbers, fed("the most records of a packet", store(), &packet, due))
    };
    let closing = |numbers, due| with_list(numbers, closing("the most at the end", store(), due));
    vec![
        fed(9_360, left(&listed(4_680), 131_056, &[])),
        fed(9_359, Err(13)),
        closing(4_680, ended(&listed(2_340), 65_520)),
        closing(4_679, Err(13)),
    ]
}
