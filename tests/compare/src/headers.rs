//! Compares the checks of file headers and chunks, and the free-space offset.

use crate::trial::Trial;
use first_reader::answers::Answer;
use second_reader::header;
use support::difference::Outcome;

pub const FREE_SPACE_OFFSET: &str = "evtx_free_space_offset";

pub fn compare(trial: &mut Trial) -> Outcome {
    let first = first_reader::check_file_header(&mut trial.lent);
    let second = Answer::without_length(header::check_file_header(trial.bytes));
    trial.check("evtx_check_file_header", "", first, second)?;
    let first = first_reader::check_chunk(&mut trial.lent);
    let second = Answer::without_length(header::check_chunk(trial.bytes));
    trial.check("evtx_check_chunk", "", first, second)?;
    let first = first_reader::free_space_offset(&mut trial.lent);
    let second = header::free_space_offset(trial.bytes).into();
    trial.check(FREE_SPACE_OFFSET, "", first, second)
}
