//! A chunk of generated records: names and definitions that they share lie in
//! its free space, and each record may point into those before it.

use super::stock::Stock;
use super::trees::{Scope, Trees};
use log_writer::*;
use support::generate::seal_chunk;

/// Where shared things begin, and where records end.
const SHARED: usize = 46_000;
const RECORDS_END: usize = 44_000;

/// A record of a chunk, and the fields in it.
pub struct Placed {
    pub offset: usize,
    pub size: usize,
    pub fields: Vec<Field>,
}

pub struct Made {
    pub chunk: Vec<u8>,
    pub records: Vec<Placed>,
    /// The fields of shared things.
    pub shared: Vec<Field>,
    /// Offsets of names and definitions, to point to.
    pub targets: Vec<usize>,
}

/// The header of a chunk and its checksums, for records up to `free`.
pub fn seal(chunk: &mut [u8], free: usize) {
    put_chunk_header(chunk, free);
    seal_chunk(chunk);
}

/// A chunk of up to `most` records; its header holds anything.
pub fn chunk(random: &mut Random, stock: &Stock, most: usize) -> Made {
    generate(random, stock, most, false)
}

/// The same, with chains of elements around the limits of depth.
pub fn deep_chunk(random: &mut Random, stock: &Stock) -> Made {
    generate(random, stock, 2, true)
}

fn generate(random: &mut Random, stock: &Stock, most: usize, chain: bool) -> Made {
    let mut chunk = vec![0; CHUNK];
    let header = random.bytes(DATA);
    put(&mut chunk, 0, &header);
    let mut trees = Trees {
        random: Random::new(random.number()),
        stock,
        names: Vec::new(),
        definitions: Vec::new(),
        items_left: 40,
    };
    let shared = shared_things(&mut chunk, &mut trees);
    let mut records = Vec::new();
    let mut offset = DATA + random.pick(&[0, 0, 0, 1, 77]);
    for number in 0..most {
        let scope = if chain {
            chain_scope(random)
        } else {
            Scope { kinds: &[], elements: 4, fragments: 2, chain }
        };
        let Some(placed) = one_more(&mut chunk, &mut trees, offset, number, scope) else { break };
        offset += placed.size;
        records.push(placed);
    }
    let definitions = trees.definitions.iter().map(|(offset, _)| *offset);
    let targets = trees.names.iter().copied().chain(definitions).collect();
    Made { chunk, records, shared, targets }
}

fn chain_scope(random: &mut Random) -> Scope<'static> {
    let (elements, fragments) = random.pick(&[(31, 0), (32, 0), (33, 0), (4, 7), (4, 8), (5, 6)]);
    Scope { kinds: &[], elements, fragments, chain: true }
}

fn filled(start: usize, random: &mut Random) -> Writer {
    Writer::filled(start, Filling::Random(Random::new(random.number())))
}

/// Writes names and definitions to share; answers their fields.
fn shared_things(chunk: &mut [u8], trees: &mut Trees) -> Vec<Field> {
    let mut writer = filled(SHARED, &mut trees.random);
    for _ in 0..trees.random.below(6) {
        trees.names.push(writer.here());
        let name = super::stock::name(&mut trees.random);
        writer.bare_name(&name);
    }
    for _ in 0..trees.random.below(3) {
        let scope = Scope { kinds: &[], elements: 3, fragments: 0, chain: false };
        trees.definition(&mut writer, scope);
    }
    put(chunk, SHARED, &writer.bytes);
    writer.fields
}

fn one_more(
    chunk: &mut [u8],
    trees: &mut Trees,
    offset: usize,
    number: usize,
    scope: Scope,
) -> Option<Placed> {
    let mut writer = filled(offset + 24, &mut trees.random);
    trees.items_left = 40;
    let known = (trees.names.len(), trees.definitions.len());
    writer.stream_header();
    trees.content(&mut writer, scope);
    let tail = trees.random.pick(&[0, 0, 0, 1, 2, 9]);
    writer.unread(&vec![0; tail]);
    let bytes = record(number as u64, &writer.bytes);
    if offset + bytes.len() > RECORDS_END {
        // What stood in the record is not there to be pointed to.
        trees.names.truncate(known.0);
        trees.definitions.truncate(known.1);
        return None;
    }
    put(chunk, offset, &bytes);
    Some(Placed { offset, size: bytes.len(), fields: writer.fields })
}
