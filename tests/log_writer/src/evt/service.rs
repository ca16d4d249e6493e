//! A log of one length to which events are written, as by the Windows service: the
//! trailer behind the last record, the oldest records given up for new ones, and words
//! 0x27 at the file's end where a record's fixed fields would not fit.

use super::event::Event;
use super::parts::*;
use std::collections::VecDeque;

const FILL: [u8; 4] = [0x27, 0, 0, 0];

/// A record that was not given up.
#[derive(Clone, Debug)]
pub struct Kept {
    pub offset: usize,
    pub number: u32,
    pub event: Event,
}

pub struct Service {
    file: Vec<u8>,
    kept: VecDeque<Kept>,
    /// Where the trailer's first length stands.
    end: usize,
    next_number: u32,
    wrapped: bool,
}

impl Service {
    /// An empty log of so many bytes, a multiple of 4, and the number of its first
    /// record.
    pub fn new(length: usize, next_number: u32) -> Service {
        assert!(length % 4 == 0 && length >= HEADER + END_RECORD, "no length of a log");
        let file = file_with(DIRTY, &vec![0; length - HEADER]);
        let mut log =
            Service { file, kept: VecDeque::new(), end: HEADER, next_number, wrapped: false };
        log.put_trailer();
        log.open();
        log
    }

    /// Where the trailer's first length stands.
    pub fn end(&self) -> usize {
        self.end
    }

    /// The records that were not given up, the oldest first.
    pub fn kept(&self) -> impl Iterator<Item = &Kept> {
        self.kept.iter()
    }

    /// The numbers of header and trailer as they are due.
    pub fn numbers(&self) -> [u32; 4] {
        let first = self.kept.front();
        let offset = first.map_or(self.end, |first| first.offset);
        [offset as u32, self.end as u32, self.next_number, first.map_or(0, |first| first.number)]
    }

    /// Writes a record and, behind it, the trailer. Answers whether it fits.
    pub fn write(&mut self, event: Event) -> bool {
        let record = event.record(self.next_number);
        let fill = self.fill();
        let needed = fill + record.len() + END_RECORD;
        let room = self.file.len() - HEADER;
        if needed > room {
            return false;
        }
        while self.used() + needed > room {
            self.kept.pop_front();
        }
        put_round(&mut self.file, self.end, &FILL.repeat(fill / 4));
        let offset = after(self.file.len(), self.end, fill);
        put_round(&mut self.file, offset, &record);
        let end = after(self.file.len(), offset, record.len());
        self.wrapped |= end < self.end;
        self.end = end;
        self.kept.push_back(Kept { offset, number: self.next_number, event });
        self.next_number = self.next_number.wrapping_add(1);
        self.put_trailer();
        true
    }

    /// How many bytes are left at the file's end, if too few for a record's fixed fields.
    fn fill(&self) -> usize {
        let left = self.file.len() - self.end;
        if left < FIXED {
            left
        } else {
            0
        }
    }

    /// How many bytes the records take. They are fewer than all, since there is a
    /// trailer.
    fn used(&self) -> usize {
        let Some(first) = self.kept.front() else { return 0 };
        let room = self.file.len() - HEADER;
        (self.end + room - first.offset) % room
    }

    fn put_trailer(&mut self) {
        let trailer = end_record(self.numbers());
        put_round(&mut self.file, self.end, &trailer);
    }

    fn flags(&self) -> u32 {
        if self.wrapped {
            WRAPPED
        } else {
            0
        }
    }

    /// Closes the log and opens it again: from here on the header has the numbers of
    /// now.
    pub fn open(&mut self) {
        let numbers = self.numbers();
        set_numbers(&mut self.file, numbers);
    }

    /// The file as it is left when the log is closed.
    pub fn closed(&self) -> Vec<u8> {
        let mut file = self.file.clone();
        set_numbers(&mut file, self.numbers());
        set_flags(&mut file, self.flags());
        file
    }

    /// The file as a power cut leaves it: the header's numbers are those of the
    /// opening.
    pub fn dirty(&self) -> Vec<u8> {
        let mut file = self.file.clone();
        set_flags(&mut file, self.flags() | DIRTY);
        file
    }
}
