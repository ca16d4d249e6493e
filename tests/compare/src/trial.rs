//! One input of a comparison: after each call the answers of both readers are
//! compared here, and the lent memory is checked.

use first_reader::answers::{Answer, Entry, Fields, Found, Seen, Stretch, Text};
use std::fmt::{Debug, Display};
use support::difference::{Difference, Outcome};
use support::lent::Lent;
use support::tally::Tally;

/// An answer of the C interface.
pub trait Numbered: Copy + Debug + PartialEq {
    fn number(&self) -> u32;
}

macro_rules! numbered {
    ($($answer:ty),*) => {
        $(impl Numbered for $answer {
            fn number(&self) -> u32 {
                self.number
            }
        })*
    };
}

numbered!(Answer, Found, Stretch, Fields, Text, Entry, Seen);

pub struct Trial<'a> {
    pub bytes: &'a [u8],
    pub lent: Lent<u8>,
    tally: &'a mut Tally,
}

impl<'a> Trial<'a> {
    /// Lends `bytes`, with `behind` after them, at an address that `shift` moves.
    pub fn new(bytes: &'a [u8], behind: &[u8], shift: u64, tally: &'a mut Tally) -> Trial<'a> {
        Trial { bytes, lent: Lent::input(bytes, behind, (shift % 8) as usize), tally }
    }

    /// Other bytes, with others behind them.
    pub fn on<'b>(&'b mut self, bytes: &'b [u8], behind: &[u8]) -> Trial<'b> {
        Trial::new(bytes, behind, bytes.len() as u64, self.tally)
    }

    /// Notes the number that a call is to answer.
    pub fn note(&mut self, call: &'static str, number: u32) {
        self.tally.note(call, number);
    }

    /// Both answers are equal, and the input is unchanged.
    pub fn check<A: Numbered>(
        &mut self,
        call: &'static str,
        asked: impl Display,
        first: A,
        second: A,
    ) -> Outcome {
        self.note(call, second.number());
        let differ = |found: String| Err(Difference { call, asked: asked.to_string(), found });
        if first != second {
            return differ(format!("first reader:  {first:?}\nsecond reader: {second:?}"));
        }
        if !self.lent.holds_only(&[]) {
            return differ("the first reader changed its input or the guards".to_string());
        }
        Ok(())
    }
}
