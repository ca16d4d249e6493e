//! Compares the calls for the length of a record's text, and for the text with
//! rooms around that length.

use crate::trial::Trial;
use first_reader::answers::Text;
use second_reader::binxml::{record_text, text_length};
use std::collections::BTreeSet;
use support::difference::{Difference, Outcome};
use support::lent::Lent;

pub const CALL: &str = "evtx_record_text";
pub const LENGTH_CALL: &str = "evtx_text_length";
/// Texts longer than this are asked for with rooms that are too small.
const LONGEST: u64 = 1 << 20;
/// What a difference shows of a text.
const SHOWN: usize = 400;

/// A text, or the number of its refusal.
pub type Answer = Result<Vec<u8>, u32>;

/// The length of the text, whatever room there is, from both readers and by hand
/// where it was worked out. Answers what the first reader answered, if there is a
/// text and room can be lent for it.
pub fn length(
    trial: &mut Trial,
    offset: u64,
    hand: Option<Result<u64, u32>>,
) -> Result<Option<usize>, Difference> {
    let asked = format!("offset {offset}, of {} bytes", trial.bytes.len());
    let answer = first_reader::text_length(&mut trial.lent, offset);
    let second = text_length(trial.bytes, offset).map_err(|refusal| refusal.number);
    trial.check(LENGTH_CALL, &asked, answer, second.into())?;
    if let Some(hand) = hand.filter(|hand| *hand != second) {
        let found = format!("both readers: {answer:?}\nby hand: {hand:?}");
        return Err(Difference { call: LENGTH_CALL, asked, found });
    }
    let lendable = answer.number == 0 && answer.length <= LONGEST;
    Ok(lendable.then_some(answer.length as usize))
}

/// The length of the text, and the text with `room`, with just enough and with
/// one byte too few.
pub fn compare(trial: &mut Trial, offset: u64, room: usize) -> Outcome {
    let mut rooms = BTreeSet::from([room]);
    if let Some(length) = length(trial, offset, None)? {
        rooms.extend([length.saturating_sub(1), length]);
    }
    for room in rooms {
        with_room(trial, offset, room, None)?;
    }
    Ok(())
}

/// The text with one room, from both readers and by hand where it was worked out.
pub fn with_room(trial: &mut Trial, offset: u64, room: usize, hand: Option<Answer>) -> Outcome {
    let second = record_text(trial.bytes, offset, room as u64).map_err(|refusal| refusal.number);
    let mut out = Lent::output(room);
    let answer = first_reader::record_text(&mut trial.lent, offset, &mut out);
    let (number, text) = parts(&second);
    trial.note(CALL, number);
    let wanted = Text { number, length: text.len() as u64 };
    let input_kept = trial.lent.holds_only(&[]);
    let agree = answer == wanted && hand.as_ref().is_none_or(|hand| *hand == second);
    if agree && out.holds_only(text) && input_kept {
        return Ok(());
    }
    let mut found = vec![format!("first reader:  {}", describe(&answer, &out))];
    found.push(format!("second reader: {}", line(&second)));
    found.extend(hand.map(|hand| format!("by hand:       {}", line(&hand))));
    found.extend((answer == wanted).then(|| memory_note(&out, text, input_kept).to_string()));
    let asked = format!("offset {offset}, room {room}, of {} bytes", trial.bytes.len());
    Err(Difference { call: CALL, asked, found: found.join("\n") })
}

fn parts(answer: &Answer) -> (u32, &[u8]) {
    match answer {
        Ok(text) => (0, text),
        Err(number) => (*number, &[]),
    }
}

/// What is wrong with memory where the answers agree.
fn memory_note(out: &Lent<u8>, text: &[u8], input_kept: bool) -> &'static str {
    if !input_kept {
        "the first reader changed its input or the guards around it"
    } else if out.now()[..text.len()] != *text {
        "the texts differ"
    } else if !out.holds_only(text) {
        "the first reader changed memory beyond its text, or the guards around it"
    } else {
        "both readers differ from the answer by hand"
    }
}

fn describe(answer: &Text, out: &Lent<u8>) -> String {
    let kept = (answer.length as usize).min(out.length());
    let text = String::from_utf8_lossy(&out.now()[..kept]);
    shown(&format!("number {}, length {}, {text}", answer.number, answer.length))
}

fn line(answer: &Answer) -> String {
    let (number, text) = parts(answer);
    shown(&format!("number {number}, length {}, {}", text.len(), String::from_utf8_lossy(text)))
}

fn shown(line: &str) -> String {
    line.chars().take(SHOWN).collect()
}
