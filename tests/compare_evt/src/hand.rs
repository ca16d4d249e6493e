//! Calls for EVT logs with answers worked out by hand, to which both readers are held.

mod headers;
mod records;
mod texts;

use second_reader::evt::{self, At};
use support::difference::Due;

/// A call, and what is due.
pub enum Call {
    Header { room: usize, due: Due },
    Record { offset: u64, due: Result<At, u32> },
    Text { offset: u64, room: usize, due: Due },
}

pub struct ByHand {
    pub name: &'static str,
    pub file: Vec<u8>,
    pub call: Call,
}

impl ByHand {
    /// What the second reader answers, if that is not what is due.
    pub fn wrong_second_answer(&self) -> Option<String> {
        let (second, due) = match &self.call {
            Call::Header { room, due } => {
                (format!("{:?}", evt::header(&self.file, *room)), format!("{due:?}"))
            }
            Call::Record { offset, due } => {
                (format!("{:?}", evt::record(&self.file, *offset)), format!("{due:?}"))
            }
            Call::Text { offset, room, due } => {
                (format!("{:?}", evt::text(&self.file, *offset, *room)), format!("{due:?}"))
            }
        };
        (second != due).then(|| format!("second reader: {second}\nby hand:       {due}"))
    }
}

pub fn all() -> Vec<ByHand> {
    [headers::all(), records::all(), texts::all()].into_iter().flatten().collect()
}

fn header(name: &'static str, file: Vec<u8>, room: usize, due: Due) -> ByHand {
    ByHand { name, file, call: Call::Header { room, due } }
}

fn record(name: &'static str, file: Vec<u8>, offset: u64, due: Result<At, u32>) -> ByHand {
    ByHand { name, file, call: Call::Record { offset, due } }
}

fn text(name: &'static str, file: Vec<u8>, offset: u64, room: usize, due: Due) -> ByHand {
    ByHand { name, file, call: Call::Text { offset, room, due } }
}

#[cfg(test)]
mod tests {
    use super::*;
    use std::collections::BTreeSet;

    #[test]
    fn the_second_reader_answers_what_is_due() {
        for case in all() {
            assert_eq!(case.wrong_second_answer(), None, "{}", case.name);
        }
    }

    #[test]
    fn each_call_has_each_number() {
        let mut numbers = [(); 3].map(|_| BTreeSet::new());
        for case in all() {
            match &case.call {
                Call::Header { due, .. } => numbers[0].insert(due.as_ref().err().copied()),
                Call::Record { due, .. } => numbers[1].insert(due.as_ref().err().copied()),
                Call::Text { due, .. } => numbers[2].insert(due.as_ref().err().copied()),
            };
        }
        let refusals = |numbers: &[u32]| -> BTreeSet<Option<u32>> {
            [None].into_iter().chain(numbers.iter().map(|number| Some(*number))).collect()
        };
        let due = [&[1, 2, 13, 17][..], &[1, 2, 17, 18], &[1, 2, 13, 17, 18]].map(refusals);
        assert_eq!(numbers, due);
    }
}
