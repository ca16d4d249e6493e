//! Compares the calls for the next record in a chunk and in loose bytes.

use crate::trial::Trial;
use second_reader::record;
use support::difference::Outcome;

pub fn compare(trial: &mut Trial, from: u64) -> Outcome {
    let asked = format_args!("from {from}");
    let first = first_reader::next_in_chunk(&mut trial.lent, from);
    let second = record::next_in_chunk(trial.bytes, from).into();
    trial.check("evtx_next_in_chunk", asked, first, second)?;
    let first = first_reader::next_in_bytes(&mut trial.lent, from);
    let second = record::next_in_bytes(trial.bytes, from).into();
    trial.check("evtx_next_in_bytes", asked, first, second)
}
