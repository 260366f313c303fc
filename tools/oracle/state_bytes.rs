//! A state and an action as one item of fixed length: the sizes; the memory; for each cache which
//! addresses are present, 0 or 1, and then their data; for each out queue and then for each in queue its
//! length and all its places; the action. Numbers are big-endian.

use crate::store::{Record, Sizes};
use crate::whole::{Cache, InEntry, OutEntry, Queue, State};
use crate::whole::{MOST_ADDRESSES, MOST_DEPTH, MOST_ENGINES};

const CACHE: usize = MOST_ADDRESSES + 4 * MOST_ADDRESSES;
const OUT: usize = 1 + 5 * MOST_DEPTH;
const IN: usize = 1 + 6 * MOST_DEPTH;
pub const STATE: usize = 3 + 4 * MOST_ADDRESSES + MOST_ENGINES * (CACHE + OUT + IN);
pub const ITEM: usize = STATE + 8;

pub fn state_to_bytes(state: &State) -> Vec<u8> {
    let Sizes { engines, addresses, depth } = state.sizes;
    let mut bytes = vec![engines, addresses, depth];
    bytes.extend(words(&state.memory));
    for cache in &state.caches {
        bytes.extend(cache.present.map(u8::from));
        bytes.extend(words(&cache.data));
    }
    for queue in &state.outs {
        bytes.push(queue.length);
        bytes.extend(queue.entries.iter().flat_map(|entry| five_bytes(entry.address, entry.data)));
    }
    for queue in &state.ins {
        bytes.push(queue.length);
        for entry in &queue.entries {
            bytes.push(entry.origin);
            bytes.extend(five_bytes(entry.address, entry.data));
        }
    }
    bytes
}

pub fn item_to_bytes(state: &State, action: &Record) -> Vec<u8> {
    [state_to_bytes(state), action.to_bytes()].concat()
}

fn words(data: &[u32]) -> Vec<u8> {
    data.iter().flat_map(|word| word.to_be_bytes()).collect()
}

fn five_bytes(address: u8, data: u32) -> Vec<u8> {
    [&[address], &data.to_be_bytes()[..]].concat()
}

/// Bytes that are taken from the front, one part after another.
struct Front<'a>(&'a [u8]);

impl Front<'_> {
    fn byte(&mut self) -> u8 {
        let (first, rest) = self.0.split_first().expect("an item has all its bytes");
        self.0 = rest;
        *first
    }

    fn word(&mut self) -> u32 {
        u32::from_be_bytes([self.byte(), self.byte(), self.byte(), self.byte()])
    }

    fn words(&mut self) -> [u32; MOST_ADDRESSES] {
        std::array::from_fn(|_| self.word())
    }

    fn cache(&mut self) -> Cache {
        let present = std::array::from_fn(|_| self.byte() != 0);
        Cache { present, data: self.words() }
    }

    fn out_queue(&mut self) -> Queue<OutEntry> {
        let length = self.byte();
        Queue { length, entries: std::array::from_fn(|_| OutEntry { address: self.byte(), data: self.word() }) }
    }

    fn in_queue(&mut self) -> Queue<InEntry> {
        let length = self.byte();
        let mut entry = |_| InEntry { origin: self.byte(), address: self.byte(), data: self.word() };
        Queue { length, entries: std::array::from_fn(&mut entry) }
    }
}

pub fn item_from_bytes(item: &[u8]) -> (State, Record) {
    let mut front = Front(item);
    let sizes = Sizes { engines: front.byte(), addresses: front.byte(), depth: front.byte() };
    let memory = front.words();
    let caches = std::array::from_fn(|_| front.cache());
    let outs = std::array::from_fn(|_| front.out_queue());
    let ins = std::array::from_fn(|_| front.in_queue());
    (State { sizes, memory, caches, outs, ins }, Record::from_bytes(front.0))
}
