//! Inputs of a fuzzer as calls to both readers. The bytes of an input say which
//! calls are made and on what memory; the answers and the memory are compared.

mod bases;
mod evt;
mod form;
mod indexed;
mod packets;
pub mod seeds;

use compare::trial::Trial;
use compare::{headers, nexts, records, searches, texts};
use form::{Calls, Head, Lent};
use support::difference::Outcome;
use support::tally::Tally;

/// The longest input that a fuzzer is to make: some records of usual size. The
/// time of a text grows with the length of what is written again and again.
pub const LONGEST: usize = 4_096;

/// Makes the calls that the input asks for, to both readers.
pub fn one_input(input: &[u8], tally: &mut Tally) -> Outcome {
    let (head, rest) = Head::split(input);
    let Lent { bytes, behind } = head.form.lent(&head, rest);
    let mut trial = |compare: &dyn Fn(&mut Trial) -> Outcome| {
        compare(&mut Trial::new(&bytes, &behind, head.room as u64, tally))
    };
    match head.calls {
        Calls::Record => trial(&|trial| {
            records::compare(trial, head.offset)?;
            texts::compare(trial, head.offset, head.room)
        }),
        Calls::Checks => trial(&headers::compare),
        Calls::Searches => trial(&|trial| searches::compare_room(trial, head.room)),
        Calls::Nexts => trial(&|trial| nexts::compare(trial, head.offset)),
        Calls::Packets => packets::stream(&head, &bytes, tally),
        Calls::Store => packets::store(&head, &bytes, tally),
        Calls::Index => trial(&|trial| indexed::chunk(&head, trial)),
        Calls::Entries => indexed::entries(&head, &bytes, tally),
        Calls::Evt => trial(&|trial| evt::log(&head, trial)),
    }
}
