//! The ways to cut a stream into packets.

use log_writer::Random;

/// The widths into which streams are cut.
const WIDTHS: [usize; 7] = [1, 2, 7, 27, 28, 1_500, 65_536];
/// Packets of a width that makes more of them are left to a kind of its own.
const MOST_PACKETS: usize = 12_500;
/// Streams up to this length are cut at every single place.
const SHORT: usize = 12_000;
const BY_CHANCE: usize = 3;

/// The lengths of the packets; what is left after the last is one more.
pub enum Cut {
    /// All of one length.
    Width(usize),
    Lengths(Vec<usize>),
}

impl Cut {
    pub fn lengths(&self) -> Box<dyn Iterator<Item = usize> + '_> {
        match self {
            Cut::Width(width) => Box::new(std::iter::repeat(*width)),
            Cut::Lengths(lengths) => Box::new(lengths.iter().copied()),
        }
    }
}

/// Packets of several widths and of lengths by chance, some of them empty; a
/// short stream is also cut at every single place.
pub fn usual(random: &mut Random, length: usize) -> Vec<Cut> {
    let widths = WIDTHS.into_iter().filter(|width| length / width <= MOST_PACKETS);
    let mut cuts: Vec<Cut> = widths.map(Cut::Width).collect();
    cuts.extend((0..BY_CHANCE).map(|_| by_chance(random, length)));
    if length <= SHORT {
        cuts.extend((0..=length).map(|place| Cut::Lengths(vec![place])));
    }
    cuts
}

fn by_chance(random: &mut Random, length: usize) -> Cut {
    let largest = random.pick(&[2, 30, 3_000, 65_536]).max(length / MOST_PACKETS);
    let mut lengths = Vec::new();
    let mut total = 0;
    while total < length {
        let next = if random.once_in(5) { 0 } else { random.between(1, largest) };
        lengths.push(next);
        total += next;
    }
    Cut::Lengths(lengths)
}
