//! Compares the calls for a record's size, stretch and fields.

use crate::trial::Trial;
use second_reader::record;
use support::difference::Outcome;

pub const SIZE_IN_CHUNK: &str = "evtx_size_in_chunk";
pub const SIZE_IN_BYTES: &str = "evtx_size_in_bytes";

pub fn compare(trial: &mut Trial, offset: u64) -> Outcome {
    let asked = format_args!("offset {offset}");
    let first = first_reader::size_in_chunk(&mut trial.lent, offset);
    let second = record::size_in_chunk(trial.bytes, offset).into();
    trial.check(SIZE_IN_CHUNK, asked, first, second)?;
    let first = first_reader::size_in_bytes(&mut trial.lent, offset);
    let second = record::size_in_bytes(trial.bytes, offset).into();
    trial.check(SIZE_IN_BYTES, asked, first, second)?;
    let first = first_reader::record_stretch(&mut trial.lent, offset);
    let second = record::record_stretch(trial.bytes, offset).into();
    trial.check("evtx_record_stretch", asked, first, second)?;
    let first = first_reader::record_fields(&mut trial.lent, offset);
    let second = record::record_fields(trial.bytes, offset).into();
    trial.check("evtx_record_fields", asked, first, second)
}
