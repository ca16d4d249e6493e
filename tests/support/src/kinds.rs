//! The kinds of generated inputs. All seeds follow from one number.

use log_writer::Random;

/// A kind of inputs; `make` makes those of one round.
pub struct Kind<M> {
    pub name: &'static str,
    pub rounds: usize,
    pub make: M,
}

/// Each round of each kind: the kind, the seed, and the number of the round.
pub fn rounds<M>(kinds: &[Kind<M>], base: u64) -> impl Iterator<Item = (&Kind<M>, u64, usize)> {
    kinds.iter().enumerate().flat_map(move |(index, kind)| {
        (0..kind.rounds).map(move |round| (kind, round_seed(base, index, round), round))
    })
}

/// The seed of a round, by the number of its kind.
pub fn round_seed(base: u64, kind: usize, round: usize) -> u64 {
    let place = ((kind as u64) << 32) + round as u64;
    Random::new(base.wrapping_add(place)).number()
}
