//! How often each call answered each number, and which numbers none answered.

use std::collections::BTreeMap;
use std::fmt;

#[derive(Default)]
pub struct Tally {
    calls: BTreeMap<&'static str, BTreeMap<u32, u64>>,
}

impl Tally {
    pub fn note(&mut self, call: &'static str, number: u32) {
        *self.calls.entry(call).or_default().entry(number).or_default() += 1;
    }

    /// Those of the expected numbers that this call never answered.
    fn never_answered(&self, call: &str, expected: &[u32]) -> Vec<u32> {
        let counts = self.calls.get(call);
        let answered = |number: &u32| counts.is_some_and(|counts| counts.contains_key(number));
        expected.iter().copied().filter(|number| !answered(number)).collect()
    }

    /// Whether each call answered all that is expected of it; what is missing is printed.
    pub fn complete(&self, expected: &[(&str, &[u32])]) -> bool {
        let mut complete = true;
        for (call, numbers) in expected {
            let missing = self.never_answered(call, numbers);
            if !missing.is_empty() {
                println!("numbers never answered by {call}: {missing:?}");
                complete = false;
            }
        }
        complete
    }

    /// How many answers were noted.
    pub fn total(&self) -> u64 {
        self.calls.values().flat_map(BTreeMap::values).sum()
    }
}

impl fmt::Display for Tally {
    fn fmt(&self, out: &mut fmt::Formatter) -> fmt::Result {
        for (call, counts) in &self.calls {
            write!(out, "{call}:")?;
            for (number, count) in counts {
                write!(out, "  {number} x {count}")?;
            }
            writeln!(out)?;
        }
        Ok(())
    }
}

#[cfg(test)]
mod tests {
    use super::*;

    #[test]
    fn a_number_that_was_never_answered_is_missing() {
        let mut tally = Tally::default();
        [0, 13, 13].iter().for_each(|number| tally.note("call", *number));
        assert!(tally.complete(&[("call", &[0, 13])]));
        assert!(!tally.complete(&[("call", &[0, 13, 17])]));
        assert!(!tally.complete(&[("call", &[0]), ("other", &[0])]));
        assert_eq!(tally.total(), 3);
    }
}
