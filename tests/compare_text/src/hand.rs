//! Cases with answers worked out by hand from document 01, and not by either
//! reader. A name begins with the number of the question in docs/DECISIONS.md
//! that the case is for, if there is one.

mod answers;
mod counts;
mod examples;
mod limits;
mod order;
mod pointers;
mod stretches;
mod texts;
mod times;
mod tokens;
mod unread;
mod values;
mod zeros;

use crate::question::Question;

pub use examples::first as first_example;

const GROUPS: [fn() -> Vec<Question>; 13] = [
    examples::all,
    limits::all,
    counts::all,
    answers::all,
    order::all,
    stretches::all,
    pointers::all,
    tokens::all,
    texts::all,
    zeros::all,
    values::all,
    times::all,
    unread::all,
];

/// Every case. Each has a chunk of its own, so a group is made when it is due.
pub fn all() -> impl Iterator<Item = Question> {
    GROUPS.into_iter().flat_map(|group| group())
}

/// Cases that take many seconds.
pub fn long() -> Vec<Question> {
    answers::longest()
}

fn flat<const N: usize>(groups: [Vec<Question>; N]) -> Vec<Question> {
    groups.into_iter().flatten().collect()
}

#[cfg(test)]
mod tests {
    use super::*;
    use crate::question::Expected;
    use second_reader::binxml::{record_text, text_length};

    /// The second reader alone, so that the cases can be tried without the first.
    #[test]
    fn the_second_reader_answers_as_expected() {
        for question in all() {
            for offset in &question.offsets {
                let answer = match record_text(&question.chunk, *offset, 1 << 20) {
                    Ok(text) => Expected::Text(text),
                    Err(_) => match text_length(&question.chunk, *offset) {
                        Ok(length) => Expected::Long(length),
                        Err(refusal) => Expected::Refused(refusal.number),
                    },
                };
                let expected = question.expected.as_ref().expect("an answer by hand");
                assert!(answer == *expected, "{}: {answer:?}", question.name);
            }
        }
    }
}
