//! Compares the search of bytes that come in packets: what each call lists, and
//! what its store holds then.

use first_reader::answers::Answer;
use log_writer::{Random, PACKET, STORE};
use second_reader::numbers::{AFTER_CLOSING, NO_ROOM};
use second_reader::stream::{self, records, Called, Listed, Search, Stream};
use std::collections::BTreeSet;
use support::difference::{Difference, Outcome};
use support::lent::Lent;
use support::tally::Tally;

pub const FEED: &str = "evtx_feed";
pub const CLOSE: &str = "evtx_close";
/// How many bytes of the stream stand behind a packet.
const BEHIND: usize = 64;

/// A packet, with what stands behind it in memory, or the end of the stream.
#[derive(Clone, Copy)]
pub enum Call<'a> {
    Feed { packet: &'a [u8], behind: &'a [u8] },
    Close,
}

impl Call<'_> {
    fn name(&self) -> &'static str {
        match self {
            Call::Feed { .. } => FEED,
            Call::Close => CLOSE,
        }
    }

    fn asked(&self, numbers: usize, before: &[u8]) -> String {
        let packet = match self {
            Call::Feed { packet, .. } => format!("a packet of {} bytes, ", packet.len()),
            Call::Close => String::new(),
        };
        let front = &before[..before.len().min(13)];
        format!("{packet}a list of {numbers} numbers, a store that began {front:x?}")
    }
}

/// A store that is lent to one call after the other.
pub struct Fed<'a> {
    store: Lent<u8>,
    /// Moves addresses, and draws the lengths of lists.
    random: Random,
    tally: &'a mut Tally,
}

impl<'a> Fed<'a> {
    pub fn new(store: &[u8], seed: u64, tally: &'a mut Tally) -> Fed<'a> {
        Fed { store: Lent::input(store, &[], seed as usize), random: Random::new(seed), tally }
    }

    /// The store as the last call left it.
    pub fn store(&self) -> &[u8] {
        self.store.now()
    }

    /// The call with lists that are too short for what is due, and then with one
    /// that is long enough.
    pub fn ask(&mut self, call: Call, due: &Called) -> Outcome {
        let needed = due.as_ref().map_or(0, |(listed, _)| 2 * listed.len());
        if needed > 0 {
            for numbers in BTreeSet::from([0, needed - 2, needed - 1]) {
                self.with_list(call, numbers, &Err(NO_ROOM))?;
            }
        }
        let more = self.random.pick(&[0, 0, 1, 2, 9]);
        self.with_list(call, needed + more, due)
    }

    /// The call with a list of so many numbers.
    pub fn with_list(&mut self, call: Call, numbers: usize, due: &Called) -> Outcome {
        let mut list = Lent::numbers(numbers);
        let (answer, packet_kept) = self.answer(call, &mut list);
        let (number, listed) = match due {
            Ok((listed, _)) => (0, listed.as_slice()),
            Err(number) => (*number, &[][..]),
        };
        self.tally.note(call.name(), number);
        let wanted = Answer { number, length: listed.len() as u64 };
        let found = if answer != wanted {
            Some(format!("first reader:  {answer:?}\nsecond reader: {wanted:?}"))
        } else if !packet_kept {
            Some("the first reader changed its packet or the guards".to_string())
        } else {
            self.wrong_memory(due, &list)
        };
        if let Some(found) = found {
            let asked = call.asked(numbers, self.store.before());
            return Err(Difference { call: call.name(), asked, found });
        }
        self.store.renew();
        Ok(())
    }

    /// What the first reader answers, and whether the packet is as it was.
    fn answer(&mut self, call: Call, list: &mut Lent<u64>) -> (Answer, bool) {
        match call {
            Call::Feed { packet, behind } => {
                let mut packet = Lent::input(packet, behind, self.random.below(8));
                let answer = first_reader::feed(&mut packet, &mut self.store, list);
                (answer, packet.holds_only(&[]))
            }
            Call::Close => (first_reader::close(&mut self.store, list), true),
        }
    }

    /// What is wrong with list and store, if something is.
    fn wrong_memory(&self, due: &Called, list: &Lent<u64>) -> Option<String> {
        let (listed, after) = match due {
            Ok(due) => due,
            Err(_) if list.holds_only(&[]) && self.store.holds_only(&[]) => return None,
            Err(_) => return Some("a refused call changed its list, store or guards".to_string()),
        };
        let numbers: Vec<u64> = listed.iter().flat_map(|(place, size)| [*place, *size]).collect();
        if !list.holds_only(&numbers) {
            return Some(list_difference(list, listed));
        }
        if !self.store.guards_kept() {
            return Some("the first reader changed the guards of its store".to_string());
        }
        let is = Stream::of(self.store.now());
        let differ =
            || format!("first reader's store: {}\ndue: {}", described(&is), described(after));
        (is != *after).then(differ)
    }
}

fn list_difference(list: &Lent<u64>, listed: &[Listed]) -> String {
    let mut pairs = list.now().chunks(2).zip(listed).enumerate();
    match pairs.find(|(_, (first, (place, size)))| **first != [*place, *size]) {
        Some((index, (first, second))) => {
            format!("record {index}: first reader {first:?}, second reader {second:?}")
        }
        None => "the first reader changed numbers beyond its answer, or the guards".to_string(),
    }
}

fn described(stream: &Stream) -> String {
    let Stream { total, closed, held } = stream;
    let front = &held[..held.len().min(32)];
    format!("total {total}, closed {closed}, {} bytes held, which begin {front:x?}", held.len())
}

/// All bytes of a stream, and the search over them.
pub struct Joined<'a> {
    bytes: &'a [u8],
    search: Search,
}

impl<'a> Joined<'a> {
    pub fn of(bytes: &'a [u8]) -> Joined<'a> {
        Joined { bytes, search: Search::over(bytes) }
    }

    /// What is due of the packet that begins at `from` and ends at `to`.
    fn due(&self, from: usize, to: usize) -> Called {
        let before = self.search.settled(from as u64).len();
        let listed = records(&self.search.settled(to as u64)[before..], 0);
        let open = self.search.open_from(to as u64) as usize;
        let held = self.bytes[open..to].to_vec();
        Ok((listed, Stream { total: to as u64, closed: false, held }))
    }

    /// What is due of the closing call.
    fn rest(&self) -> Called {
        let total = self.bytes.len() as u64;
        let before = self.search.settled(total).len();
        let listed = records(&self.search.all()[before..], 0);
        Ok((listed, Stream { total, closed: true, held: Vec::new() }))
    }

    /// Feeds both readers packets of these lengths, what is left after them as
    /// the last one, and closes; then calls again, which is refused.
    pub fn compare(
        &self,
        lengths: impl IntoIterator<Item = usize>,
        seed: u64,
        tally: &mut Tally,
    ) -> Outcome {
        let mut fed = Fed::new(&vec![0; STORE], seed, tally);
        let mut lengths = lengths.into_iter();
        let mut at = 0;
        while at < self.bytes.len() {
            let rest = &self.bytes[at..];
            let length = lengths.next().unwrap_or(rest.len()).min(rest.len());
            let (packet, behind) = rest.split_at(length.min(PACKET));
            let behind = &behind[..behind.len().min(BEHIND)];
            fed.ask(Call::Feed { packet, behind }, &self.due(at, at + packet.len()))?;
            at += packet.len();
        }
        fed.ask(Call::Close, &self.rest())?;
        fed.ask(Call::Feed { packet: &[], behind: &[] }, &Err(AFTER_CLOSING))?;
        fed.ask(Call::Close, &Err(AFTER_CLOSING))
    }
}

/// A packet and the closing call, and the closing call alone, on a store of any
/// bytes.
pub fn compare_store(store: &[u8], packet: &[u8], seed: u64, tally: &mut Tally) -> Outcome {
    let close = |store: &[u8]| stream::close(store, usize::MAX);
    let mut fed = Fed::new(store, seed, tally);
    fed.ask(Call::Feed { packet, behind: &[] }, &stream::feed(store, packet, usize::MAX))?;
    let left = fed.store().to_vec();
    fed.ask(Call::Close, &close(&left))?;
    Fed::new(store, seed, tally).ask(Call::Close, &close(store))
}
