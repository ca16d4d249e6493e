//! An event, and the record that the service makes of it.

use super::parts::{record, Fields, FIXED};
use crate::{u16s, utf16};

#[derive(Clone, Debug, Default)]
pub struct Event {
    pub generated: u32,
    pub written: u32,
    pub id: u32,
    pub kind: u16,
    pub category: u16,
    pub source: String,
    pub computer: String,
    pub sid: Vec<u8>,
    /// The units of each string, none of them zero.
    pub strings: Vec<Vec<u16>>,
    pub data: Vec<u8>,
}

/// Zeros up to an offset that is a multiple of 4.
fn pad(body: &mut Vec<u8>) {
    while (FIXED + body.len()) % 4 != 0 {
        body.push(0);
    }
}

impl Event {
    /// The names, the user's SID, the strings, the data, and 1 to 4 bytes more: the
    /// service pads also where the length is a multiple of 4.
    pub fn record(&self, number: u32) -> Vec<u8> {
        let mut body = utf16(&format!("{}\0{}\0", self.source, self.computer));
        pad(&mut body);
        let here = |body: &[u8]| (FIXED + body.len()) as u32;
        let sid_offset = here(&body);
        body.extend(&self.sid);
        let string_offset = here(&body);
        self.strings.iter().for_each(|string| body.extend([&u16s(string)[..], &[0, 0]].concat()));
        let data_offset = here(&body);
        body.extend(&self.data);
        body.push(0);
        pad(&mut body);
        let fields = Fields {
            number,
            generated: self.generated,
            written: self.written,
            id: self.id,
            kind: self.kind,
            string_count: self.strings.len() as u16,
            category: self.category,
            flags: 0,
            closing_number: 0,
            string_offset,
            sid_length: self.sid.len() as u32,
            sid_offset,
            data_length: self.data.len() as u32,
            data_offset,
        };
        record(&fields, &body)
    }
}
