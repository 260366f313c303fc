//! The chunks of a seed: the document's cases and its boundary runs first, then drawn lists.

use crate::damage;
use crate::list;
use crate::random::Random;
use crate::sound::{self, Plan};
use crate::store::Sizes;
use crate::{cases, chunks, stretched};

/// Of a hundred drawn chunks, those that are damaged.
const DAMAGED: usize = 12;

pub fn chunks_of(seed: u64, count: usize) -> Vec<Vec<u8>> {
    let mut random = Random::new(seed);
    let mut chunks: Vec<Vec<u8>> = cases::CASES.iter().map(|case| list::write(&case.list())).collect();
    chunks.extend(stretched::lists().iter().map(list::write));
    chunks.extend(damage::boundary(&mut random));
    while chunks.len() < count {
        chunks.push(if random.percent(DAMAGED) {
            damage::damaged(&mut random)
        } else {
            let plan = Plan::drawn(&mut random);
            list::write(&sound::list(&mut random, plan))
        });
    }
    chunks.truncate(count);
    chunks
}

/// Chunks of sound lists, all with this many actions: what the bench measures.
pub fn load(seed: u64, lists: usize, actions: usize) -> Vec<u8> {
    let mut random = Random::new(seed);
    let sizes = Sizes { engines: 4, addresses: 16, depth: 8 };
    let plan = Plan { hot: 4, aimed: 3, ..Plan::plain(sizes, actions) };
    let made: Vec<Vec<u8>> = (0..lists).map(|_| list::write(&sound::list(&mut random, plan))).collect();
    chunks::join(&made)
}

/// A chunk that ends before its count says, or inside its count: nothing can follow it.
pub fn cut_short(seed: u64) -> Vec<u8> {
    let mut random = Random::new(seed);
    let mut bytes = chunks::join(&[list::write(&cases::CASES[0].list())]);
    let last_kept = if random.percent(50) { 3 } else { bytes.len() - 1 };
    bytes.truncate(random.between(1, last_kept));
    bytes
}
