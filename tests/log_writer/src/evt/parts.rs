//! Header, record and trailer, and the bytes behind the header, after whose last
//! one the first comes again.

use crate::{put, put_u32};

pub const HEADER: usize = 48;
pub const MAGIC: [u8; 4] = *b"LfLe";
pub const DIRTY: u32 = 1;
pub const WRAPPED: u32 = 2;
/// A record's fixed fields, up to its first name.
pub const FIXED: usize = 56;
/// The trailer with the lengths around it.
pub const END_RECORD: usize = 40;
const MARKS: [u32; 4] = [0x1111_1111, 0x2222_2222, 0x3333_3333, 0x4444_4444];

fn u32s(numbers: &[u32]) -> Vec<u8> {
    numbers.iter().flat_map(|number| number.to_le_bytes()).collect()
}

/// A header with the offsets of the first and of the next record, the numbers of the
/// next and of the first one, and the flags.
pub fn header(numbers: [u32; 4], size: u32, flags: u32) -> Vec<u8> {
    let week = 604_800;
    [u32s(&[0x30]), MAGIC.to_vec(), u32s(&[1, 1]), u32s(&numbers), u32s(&[size, flags, week, 0x30])]
        .concat()
}

/// The marks, and the same four numbers.
pub fn trailer(numbers: [u32; 4]) -> Vec<u8> {
    u32s(&[MARKS, numbers].concat())
}

/// The trailer as the service writes it.
pub fn end_record(numbers: [u32; 4]) -> Vec<u8> {
    let length = u32s(&[END_RECORD as u32]);
    [&length[..], &trailer(numbers), &length].concat()
}

/// A file of a header with these flags, and of what stands behind it.
pub fn file_with(flags: u32, behind: &[u8]) -> Vec<u8> {
    let size = (HEADER + behind.len()) as u32;
    [&header([0x30, 0x30, 1, 0], size, flags), behind].concat()
}

/// The fixed fields of a record but for its length and magic.
#[derive(Clone, Copy, Debug, Default)]
pub struct Fields {
    pub number: u32,
    pub generated: u32,
    pub written: u32,
    pub id: u32,
    pub kind: u16,
    pub string_count: u16,
    pub category: u16,
    pub flags: u16,
    pub closing_number: u32,
    pub string_offset: u32,
    pub sid_length: u32,
    pub sid_offset: u32,
    pub data_length: u32,
    pub data_offset: u32,
}

impl Fields {
    /// Of a record with strings, each number another one. Its text begins with 7 9 11 13 15.
    pub fn distinct(string_count: u16, string_offset: u32) -> Fields {
        Fields {
            number: 7,
            generated: 8,
            written: 9,
            id: 11,
            kind: 13,
            string_count,
            category: 15,
            flags: 14,
            closing_number: 16,
            string_offset,
            sid_length: 17,
            sid_offset: 18,
            data_length: 19,
            data_offset: 20,
        }
    }
}

/// A clean file whose one record, at 48, has these fields, and these bytes behind them.
pub fn file_of_record(fields: &Fields, body: &[u8]) -> Vec<u8> {
    file_with(0, &record(fields, body))
}

/// A record, with these bytes between its fixed fields and its second length.
pub fn record(fields: &Fields, body: &[u8]) -> Vec<u8> {
    let length = (FIXED + body.len() + 4) as u32;
    let Fields { number, generated, written, id, .. } = *fields;
    let Fields { kind, string_count, category, flags, .. } = *fields;
    let mut bytes = [u32s(&[length]), MAGIC.to_vec()].concat();
    bytes.extend(u32s(&[number, generated, written, id]));
    bytes.extend(crate::u16s(&[kind, string_count, category, flags]));
    bytes.extend(u32s(&[fields.closing_number, fields.string_offset]));
    bytes.extend(u32s(&[fields.sid_length, fields.sid_offset]));
    bytes.extend(u32s(&[fields.data_length, fields.data_offset]));
    bytes.extend(body);
    bytes.extend(u32s(&[length]));
    bytes
}

/// The offset so many bytes after another, in a file of this length.
pub fn after(file_length: usize, offset: usize, length: usize) -> usize {
    HEADER + (offset - HEADER + length) % (file_length - HEADER)
}

/// Writes from an offset on, after the last byte at 48.
pub fn put_round(file: &mut [u8], offset: usize, bytes: &[u8]) {
    for (at, byte) in bytes.iter().enumerate() {
        let place = after(file.len(), offset, at);
        file[place] = *byte;
    }
}

/// The bytes from an offset on.
pub fn get_round(file: &[u8], offset: usize, length: usize) -> Vec<u8> {
    (0..length).map(|at| file[after(file.len(), offset, at)]).collect()
}

/// The file with all that stands behind its header so many bytes further. Where the
/// records stand then is not what its header says.
pub fn moved(file: &[u8], by: usize) -> Vec<u8> {
    let mut moved = file.to_vec();
    if file.len() > HEADER {
        moved[HEADER..].rotate_right(by % (file.len() - HEADER));
    }
    moved
}

/// The file, moved so that what is at `offset` begins so many bytes before its end.
pub fn moved_to_the_end(file: &[u8], offset: usize, before: usize) -> Vec<u8> {
    let around = file.len() - HEADER;
    moved(file, around + file.len() - offset - before % around)
}

/// Sets the flags of a file.
pub fn set_flags(file: &mut [u8], flags: u32) {
    put_u32(file, 36, flags);
}

/// Sets the four numbers of a file's header.
pub fn set_numbers(file: &mut [u8], numbers: [u32; 4]) {
    put(file, 16, &u32s(&numbers));
}
