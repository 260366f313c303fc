//! Bytes that are no list, or that are a list at the very edge of what the reader takes.

use crate::list::{self, List, HANDED, MOST_ACTIONS};
use crate::random::Random;
use crate::sound::{self, Plan};
use crate::store::Sizes;

const LENGTH_PLACE: usize = 3;
const VERSION_PLACE: usize = 4;
const ENGINES_PLACE: usize = 5;
const ADDRESSES_PLACE: usize = 6;
const DEPTH_PLACE: usize = 7;
const HEADER: usize = 8;

/// A list with the given sizes, in range or not, and with as many memory values as it has addresses.
/// Its actions are those of a list that is in range, so that only what is out of range is refused.
fn with_sizes(random: &mut Random, engines: u8, addresses: u8, depth: u8, actions: usize) -> Vec<u8> {
    let near = Sizes { engines: engines.clamp(1, 8), addresses: addresses.clamp(1, 64), depth: depth.clamp(1, 32) };
    let mut list: List = sound::list(random, Plan::plain(near, actions));
    list.sizes = Sizes { engines, addresses, depth };
    list.memory.resize(addresses as usize, 7);
    list::write(&list)
}

/// The document's "Run, not proved".
fn run_not_proved(random: &mut Random) -> Vec<Vec<u8>> {
    let mut chunks = Vec::new();
    for actions in [MOST_ACTIONS, MOST_ACTIONS + 1] {
        chunks.push(with_sizes(random, 2, 1, 2, actions));
    }
    for engines in [8, 9, 0] {
        chunks.push(with_sizes(random, engines, 2, 2, 40));
    }
    for addresses in [64, 65, 0] {
        chunks.push(with_sizes(random, 2, addresses, 2, 40));
    }
    for depth in [32, 33, 0] {
        chunks.push(with_sizes(random, 2, 2, depth, 150));
    }
    chunks
}

/// The largest list, and inputs that a program does not hand over whole.
fn at_the_largest(random: &mut Random) -> Vec<Vec<u8>> {
    let largest = with_sizes(random, 8, 64, 32, MOST_ACTIONS);
    let mut chunks = vec![largest.clone()];
    for more in [1, 2, 8, 3_000] {
        let mut longer = largest.clone();
        longer.resize(largest.len() + more, 0);
        chunks.push(longer.clone());
        // true of the bytes that are handed over, so that another number than 2 is the answer
        longer[..4].copy_from_slice(&(HANDED as u32 - 4).to_be_bytes());
        chunks.push(longer);
    }
    chunks
}

/// Each byte of the header at each value just out of its range, and far out.
fn bad_headers(random: &mut Random) -> Vec<Vec<u8>> {
    let good = with_sizes(random, 2, 2, 2, 12);
    let length = good[LENGTH_PLACE];
    let values = [
        (0, 255),
        (2, 1),
        (LENGTH_PLACE, 0),
        (LENGTH_PLACE, length - 1),
        (LENGTH_PLACE, length + 1),
        (LENGTH_PLACE, length + 4),
        (VERSION_PLACE, 0),
        (VERSION_PLACE, 2),
        (VERSION_PLACE, 255),
        (ENGINES_PLACE, 0),
        (ENGINES_PLACE, 9),
        (ENGINES_PLACE, 255),
        (ADDRESSES_PLACE, 0),
        (ADDRESSES_PLACE, 65),
        (ADDRESSES_PLACE, 255),
        (DEPTH_PLACE, 0),
        (DEPTH_PLACE, 33),
        (DEPTH_PLACE, 255),
    ];
    values.iter().map(|(place, value)| with_byte(&good, *place, *value)).collect()
}

fn with_byte(bytes: &[u8], place: usize, value: u8) -> Vec<u8> {
    let mut changed = bytes.to_vec();
    changed[place] = value;
    changed
}

/// Every length around the places where the header and the memory end, the length field being true.
fn short_ones(random: &mut Random) -> Vec<Vec<u8>> {
    let good = with_sizes(random, 2, 3, 2, 3);
    let mut chunks = Vec::new();
    for length in (0..HEADER).chain([8, 9, 12, 16, 19, 20, 21, 24, 27, 28, 29, 36]) {
        let mut short = good[..length].to_vec();
        if length >= 4 {
            list::set_length(&mut short);
        }
        chunks.push(short);
    }
    chunks
}

/// What is run whatever the seed; the seed only draws the actions.
pub fn boundary(random: &mut Random) -> Vec<Vec<u8>> {
    [run_not_proved(random), at_the_largest(random), bad_headers(random), short_ones(random)].concat()
}

/// A drawn list, damaged in a drawn way.
pub fn damaged(random: &mut Random) -> Vec<u8> {
    let mut plan = Plan::drawn(random);
    plan.actions = plan.actions.min(40);
    let mut bytes = list::write(&sound::list(random, plan));
    match random.below(6) {
        0 => bytes.truncate(random.below(bytes.len())),
        1 => bytes.extend(vec![random.next() as u8; random.between(1, 9)]),
        2 => recounted_length(random, &mut bytes),
        3 => several_header_bytes(random, &mut bytes),
        4 => too_many(random, &mut bytes),
        _ => several_header_bytes_and_length(random, &mut bytes),
    }
    bytes
}

/// Cut or lengthened, with a length field that says so: what is left to refuse is 7 or 8, if anything.
fn recounted_length(random: &mut Random, bytes: &mut Vec<u8>) {
    let length = random.between(HEADER, bytes.len() + 9);
    bytes.resize(length, random.next() as u8);
    list::set_length(bytes);
}

fn several_header_bytes(random: &mut Random, bytes: &mut [u8]) {
    for _ in 0..random.between(1, 4) {
        bytes[random.below(HEADER)] = random.pick(&[0, 1, 2, 8, 9, 32, 33, 64, 65, 255]);
    }
}

fn several_header_bytes_and_length(random: &mut Random, bytes: &mut [u8]) {
    for _ in 0..random.between(1, 3) {
        bytes[random.between(VERSION_PLACE, DEPTH_PLACE)] = random.pick(&[0, 1, 2, 8, 9, 32, 33, 64, 65, 255]);
    }
    list::set_length(bytes);
}

/// Long inputs cost much room, so few of the drawn ones are so long; the rest lose some bytes.
fn too_many(random: &mut Random, bytes: &mut Vec<u8>) {
    if random.percent(92) {
        bytes.drain(random.between(0, HEADER - 1)..HEADER);
        return;
    }
    let addresses = bytes[ADDRESSES_PLACE] as usize;
    let actions = MOST_ACTIONS + random.between(1, 20);
    bytes.resize(HEADER + 4 * addresses + 8 * actions, random.next() as u8);
    list::set_length(bytes);
}
