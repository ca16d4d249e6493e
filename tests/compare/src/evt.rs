//! Compares the calls for EVT logs: the header, what stands at an offset, and the
//! text of the record there.

use crate::trial::Trial;
use second_reader::evt::{At, Log};
use second_reader::numbers::within_room;
use std::collections::BTreeSet;
use support::difference::{Difference, Due, Outcome};
use support::lent::Lent;

pub const HEADER: &str = "evtx_evt_header";
pub const RECORD: &str = "evtx_evt_record";
pub const TEXT: &str = "evtx_evt_text";
/// What each call has answered in the end.
pub const EXPECTED: [(&str, &[u32]); 3] =
    [(HEADER, &[0, 1, 2, 13, 17]), (RECORD, &[0, 1, 2, 17, 18]), (TEXT, &[0, 1, 2, 13, 17, 18])];
/// The room of a refused call, beside none.
const ROOM: usize = 60;
/// What a difference shows of what was written.
const SHOWN: usize = 400;

/// The call for the header, and those for a record and its text at each offset; what
/// is written is asked for with rooms around its length.
pub fn compare(trial: &mut Trial, offsets: impl IntoIterator<Item = u64>) -> Outcome {
    let log = Log::of(trial.bytes);
    let log = || log.as_ref().map_err(|number| *number);
    with_rooms(&log().map(|log| log.header().to_vec()), &mut |room, due| header(trial, room, due))?;
    for offset in offsets {
        record(trial, offset, log().and_then(|log| log.record(offset)))?;
        let due = log().and_then(|log| log.text(offset)).map(String::into_bytes);
        with_rooms(&due, &mut |room, due| text(trial, offset, room, due))?;
    }
    Ok(())
}

/// The call with each room, and with what is due then, of what is due with any.
fn with_rooms(due: &Due, call: &mut dyn FnMut(usize, &Due) -> Outcome) -> Outcome {
    let rooms = match due {
        Ok(bytes) => BTreeSet::from([0, bytes.len() - 1, bytes.len(), bytes.len() + 1]),
        Err(_) => BTreeSet::from([0, ROOM]),
    };
    let in_room = |room: usize| due.clone().and_then(|bytes| within_room(bytes, room));
    rooms.into_iter().try_for_each(|room| call(room, &in_room(room)))
}

pub fn header(trial: &mut Trial, room: usize, due: &Due) -> Outcome {
    let asked = format!("room {room}, of {} bytes", trial.bytes.len());
    let mut out = Lent::output(room);
    let first = first_reader::evt_header(&mut trial.lent, &mut out);
    trial.check(HEADER, &asked, first, length(due).into())?;
    memory(HEADER, asked, &out, due)
}

pub fn record(trial: &mut Trial, offset: u64, due: Result<At, u32>) -> Outcome {
    let asked = format!("offset {offset}, of {} bytes", trial.bytes.len());
    let first = first_reader::evt_record(&mut trial.lent, offset);
    trial.check(RECORD, asked, first, due.into())
}

pub fn text(trial: &mut Trial, offset: u64, room: usize, due: &Due) -> Outcome {
    let asked = format!("offset {offset}, room {room}, of {} bytes", trial.bytes.len());
    let mut out = Lent::output(room);
    let first = first_reader::evt_text(&mut trial.lent, offset, &mut out);
    trial.check(TEXT, &asked, first, length(due).into())?;
    memory(TEXT, asked, &out, due)
}

/// The length that is due, or the refusal.
fn length(due: &Due) -> Result<u64, u32> {
    due.as_ref().map(|bytes| bytes.len() as u64).map_err(|number| *number)
}

/// The output holds what is due at its front, and is else as it was.
fn memory(call: &'static str, asked: String, out: &Lent<u8>, due: &Due) -> Outcome {
    let bytes = due.as_ref().map_or(&[][..], Vec::as_slice);
    if out.holds_only(bytes) {
        return Ok(());
    }
    let now = out.now().get(..bytes.len()).unwrap_or(out.now());
    let shown = |bytes: &[u8]| -> String {
        String::from_utf8_lossy(bytes).escape_debug().take(SHOWN).collect()
    };
    let found = if now == bytes {
        "the first reader changed memory beyond its answer, or the guards".to_string()
    } else {
        format!("first reader: {}\ndue:          {}", shown(now), shown(bytes))
    };
    Err(Difference { call, asked, found })
}
