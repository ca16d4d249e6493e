//! Definitions, instances and their values.

use super::{Part, Writer};
use crate::put;

pub const BIN_XML: u8 = 0x21;

/// A value of an instance.
pub enum Value<'a> {
    /// Type and bytes.
    Plain(u8, Vec<u8>),
    /// BinXml: what is written after its stream header.
    Fragment(&'a dyn Fn(&mut Writer)),
}

pub fn plain(kind: u8, bytes: impl Into<Vec<u8>>) -> Value<'static> {
    Value::Plain(kind, bytes.into())
}

impl Writer {
    /// A definition as it lies in a chunk, without a pointer.
    pub fn bare_definition(&mut self, element: impl FnOnce(&mut Writer)) {
        self.unread(&[0; 20]);
        let bare = std::mem::replace(&mut self.bare, false);
        self.counted(|w| {
            w.stream_header();
            element(w);
            w.token(0x00);
        });
        self.bare = bare;
    }

    pub fn instance_start(&mut self) {
        self.token(0x0c);
        self.unread(&[1, 0, 0, 0, 0]);
    }

    /// An instance whose definition lies at the next offset.
    pub fn instance(&mut self, element: impl FnOnce(&mut Writer), values: &[Value]) {
        self.instance_start();
        self.pointer_here();
        self.bare_definition(element);
        self.values(values);
    }

    /// An instance whose definition lies elsewhere.
    pub fn pointing(&mut self, definition: usize, values: &[Value]) {
        self.instance_start();
        self.pointer(definition);
        self.values(values);
    }

    pub fn values(&mut self, values: &[Value]) {
        let kind = |value: &Value| match value {
            Value::Plain(kind, _) => *kind,
            Value::Fragment(_) => BIN_XML,
        };
        let kinds: Vec<u8> = values.iter().map(kind).collect();
        self.values_of(&kinds, |w, index| match &values[index] {
            Value::Plain(_, bytes) => w.plain_value(bytes),
            Value::Fragment(inside) => w.fragment(|w| inside(w)),
        });
    }

    /// Count, descriptors and values. The values are written in their places,
    /// so that pointers in them are right.
    pub fn values_of(&mut self, kinds: &[u8], mut write: impl FnMut(&mut Writer, usize)) {
        self.note(Part::Count, 4);
        self.u32(kinds.len());
        let descriptors = self.bytes.len();
        for kind in kinds {
            self.note(Part::Length, 2);
            self.u16(0);
            self.note(Part::Kind, 1);
            self.put(&[*kind]);
            self.unread(&[0]);
        }
        for index in 0..kinds.len() {
            let from = self.bytes.len();
            write(self, index);
            let size = (self.bytes.len() - from) as u16;
            put(&mut self.bytes, descriptors + 4 * index, &size.to_le_bytes());
        }
    }

    pub fn plain_value(&mut self, bytes: &[u8]) {
        self.note(Part::Value, bytes.len());
        self.put(bytes);
    }

    /// The fragment of a BinXml value.
    pub fn fragment(&mut self, inside: impl FnOnce(&mut Writer)) {
        let bare = std::mem::replace(&mut self.bare, true);
        self.stream_header();
        inside(self);
        self.bare = bare;
    }
}
