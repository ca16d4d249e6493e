//! Whole records, both searches, the next record, stretch and fields.

use log_writer::*;
use second_reader::record::*;

/// A record of the given stated size, with both copies of it.
fn sized(size: u32) -> Vec<u8> {
    let mut bytes = vec![0x11; size as usize];
    frame(&mut bytes, 0, size as usize);
    bytes
}

#[test]
fn sizes_at_the_bounds() {
    for (size, whole) in [(27, false), (28, true), (65_024, true), (65_025, false)] {
        let bytes = [sized(size), vec![0; 8]].concat();
        assert_eq!(whole_record(&bytes, 0), whole.then_some(u64::from(size)));
    }
    assert_eq!(whole_record(&sized(28), 0), Some(28));
    assert_eq!(whole_record(&sized(28)[..27], 0), None);
    assert_eq!(whole_record(&sized(60)[..59], 0), None);
}

#[test]
fn offsets_near_the_end_of_numbers() {
    let chunk = chunk_with(512, &sized(28));
    for back in 0..70_000u64 {
        assert_eq!(whole_record(&chunk, u64::MAX - back), None);
    }
    for offset in [u64::MAX, u64::MAX - 27, u64::MAX - 28, (1 << 32) + 512, (1 << 63) + 512] {
        assert_eq!(next_in_chunk(&chunk, offset), Err(7));
        assert_eq!(next_in_bytes(&chunk, offset), Err(7));
        assert_eq!(record_stretch(&chunk, offset), Err(7));
        assert_eq!(record_fields(&chunk, offset), Err(7));
        assert_eq!(size_in_chunk(&chunk, offset), Err(7));
        assert_eq!(size_in_bytes(&chunk, offset), Err(7));
    }
}

#[test]
fn lengths_that_are_refused() {
    for length in [0, 65_535, 65_537] {
        let chunk = vec![0; length];
        assert_eq!(search_chunk(&chunk, 9), Err(1));
        assert_eq!(next_in_chunk(&chunk, 512), Err(1));
        assert_eq!(record_stretch(&chunk, 512), Err(1));
        assert_eq!(record_fields(&chunk, 512), Err(1));
        assert_eq!(size_in_chunk(&chunk, 512), Err(1));
    }
    assert_eq!(search_bytes(&vec![0; 16_777_216], 9), Ok(vec![]));
    assert_eq!(search_bytes(&vec![0; 16_777_217], 9), Err(1));
    assert_eq!(next_in_bytes(&vec![0; 16_777_217], 9), Err(1));
    assert_eq!(size_in_bytes(&vec![0; 16_777_217], 9), Err(1));
}

#[test]
fn sizes_of_records() {
    for (at, in_chunk) in [(0, Err(7)), (511, Err(7)), (512, Ok(40)), (65_496, Ok(40))] {
        let chunk = chunk_with(at, &sized(40));
        assert_eq!(size_in_chunk(&chunk, at as u64), in_chunk);
        assert_eq!(size_in_bytes(&chunk, at as u64), Ok(40));
        assert_eq!(size_in_bytes(&chunk, at as u64 + 1), Err(7));
    }
    assert_eq!(size_in_bytes(&sized(40)[..39], 0), Err(7));
    assert_eq!(size_in_bytes(&[], 0), Err(7));
}

#[test]
fn an_empty_search_gives_an_empty_list() {
    assert_eq!(search_chunk(&vec![0; 65_536], 0), Ok(vec![]));
    assert_eq!(search_bytes(&[], 0), Ok(vec![]));
    assert_eq!(next_in_bytes(&[], 0), Err(7));
}

#[test]
fn the_most_records_of_a_chunk() {
    let mut chunk = vec![0; 512];
    while chunk.len() + 28 <= 65_536 {
        chunk.extend(sized(28));
    }
    chunk.resize(65_536, 0);
    let expected: Vec<u32> = (0..2_322).map(|index| 512 + 28 * index).collect();
    assert_eq!(search_chunk(&chunk, 2_323), Ok(expected.clone()));
    assert_eq!(search_chunk(&chunk, 2_322), Ok(expected));
    assert_eq!(search_chunk(&chunk, 2_321), Err(13));
    assert_eq!(search_chunk(&chunk, 0), Err(13));
}

#[test]
fn a_second_size_that_disagrees_is_no_jump() {
    let mut broken = sized(100);
    put(&mut broken, 40, &sized(28));
    put_u32(&mut broken, 96, 99);
    let chunk = chunk_with(512, &[broken, sized(30)].concat());
    assert_eq!(search_chunk(&chunk, 9), Ok(vec![552, 612]));
}

#[test]
fn a_record_inside_another_is_next_but_not_listed() {
    let mut outer = sized(100);
    put(&mut outer, 40, &sized(28));
    let chunk = chunk_with(512, &outer);
    assert_eq!(search_chunk(&chunk, 9), Ok(vec![512]));
    assert_eq!(next_in_chunk(&chunk, 512), Ok(512));
    assert_eq!(next_in_chunk(&chunk, 513), Ok(552));
    assert_eq!(next_in_chunk(&chunk, 552), Ok(552));
    assert_eq!(next_in_chunk(&chunk, 553), Err(7));
    assert_eq!(record_stretch(&chunk, 552), Ok(Stretch { offset: 576, length: 0 }));
}

#[test]
fn records_below_512_belong_to_loose_bytes_only() {
    let chunk = chunk_with(200, &sized(28));
    assert_eq!(search_chunk(&chunk, 9), Ok(vec![]));
    assert_eq!(search_bytes(&chunk, 9), Ok(vec![200]));
    assert_eq!(next_in_chunk(&chunk, 0), Err(7));
    assert_eq!(next_in_bytes(&chunk, 0), Ok(200));
    assert_eq!(record_stretch(&chunk, 200), Err(7));
    assert_eq!(record_fields(&chunk, 200), Err(7));
}

#[test]
fn records_that_end_at_the_last_byte() {
    let chunk = chunk_with(512, &sized(65_024));
    assert_eq!(search_chunk(&chunk, 9), Ok(vec![512]));
    assert_eq!(record_stretch(&chunk, 512), Ok(Stretch { offset: 536, length: 64_996 }));
    let chunk = chunk_with(65_508, &sized(28));
    assert_eq!(search_chunk(&chunk, 9), Ok(vec![65_508]));
    assert_eq!(next_in_chunk(&chunk, 65_508), Ok(65_508));
    assert_eq!(next_in_chunk(&chunk, 65_509), Err(7));
}

#[test]
fn stretch_and_fields() {
    let mut bytes = record(0x8877_6655_4433_2211, &[1, 2, 3]);
    put(&mut bytes, 16, &[1, 2, 3, 4, 5, 6, 7, 8]);
    let chunk = chunk_with(777, &bytes);
    assert_eq!(record_stretch(&chunk, 777), Ok(Stretch { offset: 801, length: 3 }));
    let fields =
        Fields { record_number: 0x8877_6655_4433_2211, written_time: 0x0807_0605_0403_0201 };
    assert_eq!(record_fields(&chunk, 777), Ok(fields));
}
