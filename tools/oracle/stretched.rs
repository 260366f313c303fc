//! Sound lists of the greatest length that drawn ones seldom come near: the most reads, the most
//! publications (so that write numbers pass one byte), and queues that fill, empty and fill again.

use crate::list::{List, MOST_ACTIONS};
use crate::store::{Record, Sizes, CU, MR, MW, R, W};

fn act(kind: u8, engine: u8) -> Record {
    Record { kind, engine, ..Record::default() }
}

/// A list of the greatest length: some actions once, then others over and over.
fn repeated(sizes: Sizes, once: &[Record], again: &[Record]) -> List {
    let actions = once.iter().chain(again.iter().cycle()).take(MOST_ACTIONS).copied().collect();
    List { sizes, memory: vec![5; sizes.addresses as usize], actions }
}

fn most_reads() -> List {
    let sizes = Sizes { engines: 1, addresses: 1, depth: 1 };
    repeated(sizes, &[act(MR, 1), act(CU, 1)], &[act(R, 1)])
}

fn most_publications() -> List {
    let sizes = Sizes { engines: 1, addresses: 1, depth: 1 };
    repeated(sizes, &[], &[Record { data: 9, ..act(W, 1) }, act(MW, 1), act(CU, 1)])
}

/// The writer runs ahead until the other's queue is full, and the other then follows read by read:
/// floors lie far apart, and reads fall into slots long past.
fn far_apart() -> List {
    let sizes = Sizes { engines: 2, addresses: 2, depth: 32 };
    let mut round = Vec::new();
    for place in 0..=sizes.depth {
        let write = Record { address: 1, data: place as u32, ..act(W, 1) };
        round.extend([write, act(MW, 1), act(CU, 1), Record { address: 1, ..act(R, 1) }]);
    }
    for _ in 0..=sizes.depth {
        round.extend([act(CU, 2), Record { address: 1, ..act(R, 2) }]);
    }
    repeated(sizes, &[], &round)
}

/// All queues to their depth and one more, the publications of each engine in turn, then all emptied.
fn filled_again_and_again() -> List {
    let sizes = Sizes { engines: 8, addresses: 64, depth: 32 };
    let over_full = sizes.depth as usize + 1;
    let mut round = Vec::new();
    for publisher in 1..=sizes.engines {
        for place in 0..over_full {
            let write =
                Record { address: place as u8, data: publisher as u32 * 100 + place as u32, ..act(W, publisher) };
            round.push(write);
        }
        round.extend(vec![act(MW, publisher); over_full]);
        for engine in 1..=sizes.engines {
            round.push(act(MR, engine));
            round.extend(vec![act(CU, engine); over_full]);
            round.push(act(R, engine));
        }
    }
    repeated(sizes, &[], &round)
}

pub fn lists() -> Vec<List> {
    vec![most_reads(), most_publications(), far_apart(), filled_again_and_again()]
}
