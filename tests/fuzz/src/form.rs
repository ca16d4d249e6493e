//! The form of an input: eight bytes that say what is asked, and bytes of which
//! the lent memory is made.
//!
//! The eight bytes are form, base, flags, calls, offset (2) and room (2). Those
//! that are missing are 0.

use crate::bases::{base, file_header};
use crate::evt::log_of_record;
use log_writer::{frame, put, CHUNK};
use support::generate::{seal_chunk, seal_chunk_header, seal_file_header};

pub const HEAD: usize = 8;

/// Both checksums are made right, or that of the header only.
pub const SEALED: u8 = 1;
pub const HEADER_SEALED: u8 = 2;
/// The last byte is not lent and stands behind; or one byte more is lent.
pub const SHORT: u8 = 4;
pub const LONG: u8 = 8;
/// The offset has this bit more than the head has room for.
const FAR: [(u8, u64); 3] = [(16, 1 << 16), (32, 1 << 32), (64, 1 << 63)];

/// What the bytes after the head are.
#[derive(Clone, Copy, Debug, PartialEq, Eq)]
pub enum Form {
    /// The binary XML of a record at the offset, in a chunk.
    Record,
    /// Pieces to lay over a chunk: where (2), length (1) and bytes, over and over.
    Pieces,
    /// The first bytes of a chunk.
    Front,
    /// The first bytes of a file header.
    FileHeader,
    /// What is lent, as it is.
    Loose,
    /// What a record of an EVT log has behind its magic, at the offset, in a log of it
    /// and of as many bytes more as the base says.
    EvtRecord,
}

const FORMS: [Form; 6] =
    [Form::Record, Form::Pieces, Form::Front, Form::FileHeader, Form::Loose, Form::EvtRecord];

/// Which calls are made. The searches and the checks of a chunk take many times
/// as long as the others, so an input asks for one of these.
#[derive(Clone, Copy, Debug, PartialEq, Eq)]
pub enum Calls {
    /// Size, stretch, fields, and text with its length, of the record at the offset.
    Record,
    /// The checks, and the free-space offset.
    Checks,
    Searches,
    /// The next record from the offset on.
    Nexts,
    /// The bytes as a stream: the first packet has as many of them as the offset
    /// says, the others have as many as the room says.
    Packets,
    /// A store that begins with the first bytes, holds as many of the others as
    /// the offset says, and is fed the rest; and its end.
    Store,
    /// The index of the bytes as a chunk, and one entry more behind one with the
    /// offset.
    Index,
    /// The bytes as an index: the entry at the position that the offset says, some
    /// numbers, and one entry more, of the base.
    Entries,
    /// The bytes as an EVT log: its header, and records and texts from the offset on.
    Evt,
}

pub const CALLS: [Calls; 9] = [
    Calls::Record,
    Calls::Checks,
    Calls::Searches,
    Calls::Nexts,
    Calls::Packets,
    Calls::Store,
    Calls::Index,
    Calls::Entries,
    Calls::Evt,
];

#[derive(Clone, Copy, Debug)]
pub struct Head {
    pub form: Form,
    /// Which chunk the bytes are laid over, or how many more an EVT log has.
    pub base: u8,
    pub flags: u8,
    pub calls: Calls,
    pub offset: u64,
    pub room: usize,
}

/// What is lent, and what stands behind it.
pub struct Lent {
    pub bytes: Vec<u8>,
    pub behind: Vec<u8>,
}

impl Head {
    /// The head of an input, and its other bytes.
    pub fn split(input: &[u8]) -> (Head, &[u8]) {
        let (front, rest) = input.split_at(input.len().min(HEAD));
        let byte = |at: usize| front.get(at).copied().unwrap_or(0);
        let flags = byte(2);
        let far = FAR.iter().filter(|(flag, _)| flags & flag != 0).map(|(_, more)| more);
        let head = Head {
            form: FORMS[usize::from(byte(0)) % FORMS.len()],
            base: byte(1),
            flags,
            calls: CALLS[usize::from(byte(3)) % CALLS.len()],
            offset: u64::from(u16::from_le_bytes([byte(4), byte(5)])) + far.sum::<u64>(),
            room: usize::from(u16::from_le_bytes([byte(6), byte(7)])),
        };
        (head, rest)
    }

    /// The input of this head with the other bytes; the offset is below 65,536.
    pub fn input(&self, rest: &[u8]) -> Vec<u8> {
        let offset = (self.offset as u16).to_le_bytes();
        let room = (self.room as u16).to_le_bytes();
        let front = [self.form as u8, self.base, self.flags, self.calls as u8];
        [&front, &offset[..], &room, rest].concat()
    }

    fn has(&self, flag: u8) -> bool {
        self.flags & flag != 0
    }
}

impl Form {
    /// The memory that an input of this form has lent.
    pub fn lent(self, head: &Head, rest: &[u8]) -> Lent {
        let mut bytes = match self {
            Form::Loose => rest.to_vec(),
            Form::FileHeader => laid_over(file_header(), rest),
            Form::Front => laid_over(base(head.base), rest),
            Form::Pieces => with_pieces(base(head.base).to_vec(), rest),
            Form::Record => with_record(base(head.base).to_vec(), head.offset as u16, rest),
            Form::EvtRecord => log_of_record(head, rest),
        };
        match self {
            Form::Loose | Form::EvtRecord => (),
            Form::FileHeader if head.has(SEALED) => seal_file_header(&mut bytes),
            Form::FileHeader => (),
            _ if head.has(SEALED) => seal_chunk(&mut bytes),
            _ if head.has(HEADER_SEALED) => seal_chunk_header(&mut bytes),
            _ => (),
        }
        let mut behind = Vec::new();
        if head.has(SHORT) {
            behind.extend(bytes.pop());
        } else if head.has(LONG) {
            bytes.push(0);
        }
        Lent { bytes, behind }
    }
}

fn laid_over(below: &[u8], front: &[u8]) -> Vec<u8> {
    let mut bytes = below.to_vec();
    let length = front.len().min(bytes.len());
    put(&mut bytes, 0, &front[..length]);
    bytes
}

/// A piece that reaches beyond the chunk is cut there.
fn with_pieces(mut chunk: Vec<u8>, mut rest: &[u8]) -> Vec<u8> {
    while let [low, high, length, more @ ..] = rest {
        let at = usize::from(u16::from_le_bytes([*low, *high]));
        let (piece, after) = more.split_at(more.len().min(usize::from(*length)));
        let fitting = piece.len().min(CHUNK - at);
        put(&mut chunk, at, &piece[..fitting]);
        rest = after;
    }
    chunk
}

/// A record at the offset with as much of the stretch as fits; where not even
/// the smallest record fits, the chunk as it is.
fn with_record(mut chunk: Vec<u8>, offset: u16, stretch: &[u8]) -> Vec<u8> {
    let at = usize::from(offset);
    let Some(most) = (CHUNK - at).checked_sub(28) else { return chunk };
    let length = stretch.len().min(most);
    put(&mut chunk, at + 24, &stretch[..length]);
    frame(&mut chunk, at, 28 + length);
    chunk
}

/// The pieces of a chunk from `from` on, without its long runs of zeros.
pub fn pieces(chunk: &[u8], from: usize) -> Vec<u8> {
    const LONG_RUN: usize = 8;
    let mut all = Vec::new();
    let mut at = from;
    while at < chunk.len() {
        let zeros = chunk[at..].iter().take_while(|byte| **byte == 0).count();
        at += zeros;
        let end = chunk.len().min(at + 255);
        let piece = &chunk[at..end];
        let run = piece.windows(LONG_RUN).position(|run| run == [0; LONG_RUN]);
        let piece = &piece[..run.unwrap_or(piece.len())];
        if !piece.is_empty() {
            all.extend((at as u16).to_le_bytes());
            all.push(piece.len() as u8);
            all.extend_from_slice(piece);
        }
        at += piece.len();
    }
    all
}

#[cfg(test)]
mod tests {
    use super::*;

    #[test]
    fn pieces_give_the_chunk_back() {
        let mut chunk = vec![0; CHUNK];
        put(&mut chunk, 512, &[7; 600]);
        put(&mut chunk, 2_000, &[0, 1, 0, 0, 0, 0, 0, 0, 0, 2]);
        put(&mut chunk, 65_535, &[9]);
        assert_eq!(with_pieces(vec![0; CHUNK], &pieces(&chunk, 0)), chunk);
    }

    #[test]
    fn a_head_is_read_as_it_was_written() {
        let head = Head {
            form: Form::Front,
            base: 3,
            flags: 4,
            calls: Calls::Nexts,
            offset: 600,
            room: 7,
        };
        let input = head.input(b"rest");
        let (read, rest) = Head::split(&input);
        assert_eq!((format!("{read:?}"), rest), (format!("{head:?}"), &b"rest"[..]));
    }
}
