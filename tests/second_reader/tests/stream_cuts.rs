//! What a call lists of a stream by its meaning, found by trying: what is open can
//! be completed, what is settled stays, and no cut changes what is listed.

mod common;

use common::{fed, sized};
use log_writer::*;
use second_reader::record::{search_bytes, whole_record};
use second_reader::stream::*;

/// Bytes rich in beginnings of records.
fn dense(random: &mut Random, length: usize) -> Vec<u8> {
    let mut bytes = Vec::new();
    while bytes.len() < length {
        match random.below(4) {
            0 => bytes.extend(MAGIC),
            1 => bytes.extend((random.pick(&[27u32, 28, 29, 40, 0x12a])).to_le_bytes()),
            2 => bytes.extend(sized(random.between(28, 40))),
            _ => bytes.push(random.pick(&[0, 0x2a, 28])),
        }
    }
    bytes.truncate(length);
    bytes
}

/// Whether later bytes make a whole record of what has arrived, found by trying:
/// it is laid over the front of a longer record.
fn completed(arrived: &[u8]) -> bool {
    let sizes = if arrived.len() < 8 {
        28..=65_024
    } else {
        let stated = get_u32(arrived, 4) as usize;
        stated.max(28)..=stated.min(65_024)
    };
    sizes.filter(|size| arrived.len() < *size).any(|size| {
        let mut bytes = sized(size);
        put(&mut bytes, 0, arrived);
        whole_record(&bytes, 0) == Some(size as u64)
    })
}

#[test]
fn what_is_open_can_be_completed_and_what_is_passed_cannot() {
    let random = &mut Random::new(14);
    let mut passed = 0;
    for _ in 0..40 {
        let bytes = dense(random, 150);
        let search = Search::over(&bytes);
        for arrived in 1..bytes.len() {
            let open = search.open_from(arrived as u64) as usize;
            assert!(open == arrived || completed(&bytes[open..arrived]), "{arrived} of {bytes:x?}");
            for visit in search.settled(arrived as u64).iter().filter(|visit| visit.size.is_none())
            {
                let rest = &bytes[visit.place as usize..arrived];
                if rest.starts_with(&MAGIC) && rest.len() >= 8 {
                    assert!(!completed(rest), "{visit:?} of {bytes:x?}");
                    passed += 1;
                }
            }
        }
    }
    assert!(passed > 1_000, "{passed}");
}

#[test]
fn what_is_settled_stays_whatever_follows() {
    let random = &mut Random::new(16);
    for _ in 0..40 {
        let (bytes, after) = (dense(random, 150), dense(random, 400));
        let search = Search::over(&bytes);
        for arrived in 1..bytes.len() {
            let later = [&bytes[..arrived], &after[random.below(300)..]].concat();
            let listed = records(Search::over(&later).all(), 0);
            assert!(listed.starts_with(&records(search.settled(arrived as u64), 0)));
        }
    }
}

#[test]
fn however_the_bytes_are_cut() {
    let random = &mut Random::new(15);
    for _ in 0..40 {
        let length = random.below(250);
        let bytes = dense(random, length);
        let joined = records(Search::over(&bytes).all(), 0);
        let places: Vec<u32> = joined.iter().map(|(place, _)| *place as u32).collect();
        assert_eq!(search_bytes(&bytes, usize::MAX), Ok(places));
        let cut = random.below(length + 1);
        assert_eq!(fed(&[&bytes[..cut], &bytes[cut..]]).concat(), joined);
        let width = random.between(1, 40);
        assert_eq!(fed(&bytes.chunks(width).collect::<Vec<_>>()).concat(), joined);
    }
}
