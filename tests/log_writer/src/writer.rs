//! A writer of binary XML. Pointers are offsets in the chunk, so a writer knows
//! at which offset its bytes will stand.

mod instances;

use crate::{put_u32, utf16, Random};

pub use instances::{plain, Value, BIN_XML};

/// What a part of the bytes is, for edits that change one of them.
#[derive(Clone, Copy, Debug, PartialEq, Eq)]
pub enum Part {
    Token,
    Length,
    Pointer,
    Count,
    Kind,
    Number,
    Units,
    Value,
}

#[derive(Clone, Copy, Debug)]
pub struct Field {
    pub part: Part,
    pub at: usize,
    pub width: usize,
}

/// What unread bytes hold.
pub enum Filling {
    Zeros,
    /// What they mostly hold in a log of Windows, or else zeros or a wrong number.
    Usual,
    Random(Random),
}

pub struct Writer {
    start: usize,
    pub bytes: Vec<u8>,
    pub fields: Vec<Field>,
    /// Elements are written without the two unread bytes.
    pub bare: bool,
    filling: Filling,
}

impl Writer {
    pub fn at(start: usize) -> Writer {
        Writer::filled(start, Filling::Zeros)
    }

    pub fn filled(start: usize, filling: Filling) -> Writer {
        Writer { start, bytes: Vec::new(), fields: Vec::new(), bare: false, filling }
    }

    pub fn here(&self) -> usize {
        self.start + self.bytes.len()
    }

    pub fn put(&mut self, bytes: &[u8]) {
        self.bytes.extend_from_slice(bytes);
    }

    pub fn u16(&mut self, number: usize) {
        self.put(&(number as u16).to_le_bytes());
    }

    pub fn u32(&mut self, number: usize) {
        self.put(&(number as u32).to_le_bytes());
    }

    fn note(&mut self, part: Part, width: usize) {
        self.fields.push(Field { part, at: self.here(), width });
    }

    pub fn token(&mut self, token: u8) {
        self.note(Part::Token, 1);
        self.put(&[token]);
    }

    /// Bytes that are not read, as many as are `usual`.
    pub fn unread(&mut self, usual: &[u8]) {
        let bytes = match &mut self.filling {
            Filling::Zeros => vec![0; usual.len()],
            Filling::Usual => usual.to_vec(),
            Filling::Random(random) => random.bytes(usual.len()),
        };
        self.put(&bytes);
    }

    pub fn stream_header(&mut self) {
        self.note(Part::Token, 4);
        self.put(&[0x0f, 1, 1, 0]);
    }

    pub fn pointer(&mut self, target: usize) {
        self.note(Part::Pointer, 4);
        self.u32(target);
    }

    /// A pointer to the next offset, where the thing itself follows.
    pub fn pointer_here(&mut self) {
        self.pointer(self.here() + 4);
    }

    /// A name as it lies in a chunk, without a pointer.
    pub fn bare_name(&mut self, name: &str) {
        self.unread(&[0; 6]);
        self.note(Part::Count, 2);
        self.u16(name.len());
        self.note(Part::Units, 2 * name.len() + 2);
        self.put(&utf16(name));
        self.u16(0);
    }

    pub fn name(&mut self, name: &str) {
        self.pointer_here();
        self.bare_name(name);
    }

    /// A 4-byte length and what it counts.
    pub fn counted(&mut self, inside: impl FnOnce(&mut Writer)) {
        self.note(Part::Length, 4);
        let length_at = self.bytes.len();
        self.u32(0);
        inside(self);
        let length = self.bytes.len() - length_at - 4;
        put_u32(&mut self.bytes, length_at, length as u32);
    }

    /// An element: `inside` begins with the name.
    pub fn element(&mut self, token: u8, inside: impl FnOnce(&mut Writer)) {
        self.token(token);
        if !self.bare {
            self.unread(&[0xff, 0xff]);
        }
        self.counted(inside);
    }

    /// `<name>`, items, `</name>`, without attributes.
    pub fn open(&mut self, name: &str, items: impl FnOnce(&mut Writer)) {
        self.element(0x01, |w| {
            w.name(name);
            w.items(items);
        });
    }

    pub fn empty(&mut self, name: &str) {
        self.element(0x01, |w| {
            w.name(name);
            w.token(0x03);
        });
    }

    /// An element with attributes and no items.
    pub fn with_attributes(&mut self, name: &str, attributes: impl FnOnce(&mut Writer)) {
        self.element(0x41, |w| {
            w.name(name);
            w.counted(attributes);
            w.token(0x03);
        });
    }

    /// 02, items, 04.
    pub fn items(&mut self, items: impl FnOnce(&mut Writer)) {
        self.token(0x02);
        items(self);
        self.token(0x04);
    }

    pub fn attribute(&mut self, name: &str, items: impl FnOnce(&mut Writer)) {
        self.token(0x06);
        self.name(name);
        items(self);
    }

    pub fn units(&mut self, units: &[u16]) {
        self.token(0x05);
        self.note(Part::Kind, 1);
        self.put(&[0x01]);
        self.note(Part::Count, 2);
        self.u16(units.len());
        units.iter().for_each(|unit| self.u16((*unit).into()));
    }

    pub fn literal(&mut self, text: &str) {
        self.units(&text.encode_utf16().collect::<Vec<u16>>());
    }

    pub fn substitution(&mut self, token: u8, number: usize) {
        self.token(token);
        self.note(Part::Number, 2);
        self.u16(number);
        self.unread(&[0xee]);
    }
}
