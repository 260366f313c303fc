//! A whole state, unused places included, and the step over it as the document's tables say it, row by
//! row. `store` has the same rules over queues that grow and shrink; here every place keeps its bytes.

use crate::store::{Record, Sizes, CI, CU, MR, MW, R, W};

pub const MOST_ENGINES: usize = 8;
pub const MOST_ADDRESSES: usize = 64;
pub const MOST_DEPTH: usize = 32;

#[derive(Clone, Copy, PartialEq, Eq, Debug)]
pub struct OutEntry {
    pub address: u8,
    pub data: u32,
}

#[derive(Clone, Copy, PartialEq, Eq, Debug)]
pub struct InEntry {
    pub origin: u8,
    pub address: u8,
    pub data: u32,
}

/// The oldest entry stands at place 0, and the places from the length on are unused.
#[derive(Clone, Copy, PartialEq, Eq, Debug)]
pub struct Queue<Entry> {
    pub length: u8,
    pub entries: [Entry; MOST_DEPTH],
}

#[derive(Clone, Copy, PartialEq, Eq, Debug)]
pub struct Cache {
    pub present: [bool; MOST_ADDRESSES],
    pub data: [u32; MOST_ADDRESSES],
}

/// What belongs to engine i stands at place i - 1.
#[derive(Clone, Copy, PartialEq, Eq, Debug)]
pub struct State {
    pub sizes: Sizes,
    pub memory: [u32; MOST_ADDRESSES],
    pub caches: [Cache; MOST_ENGINES],
    pub outs: [Queue<OutEntry>; MOST_ENGINES],
    pub ins: [Queue<InEntry>; MOST_ENGINES],
}

impl<Entry: Copy> Queue<Entry> {
    pub fn used(&self) -> &[Entry] {
        &self.entries[..self.length as usize]
    }

    /// The place at the old length is written.
    fn join(&mut self, entry: Entry) {
        self.entries[self.length as usize] = entry;
        self.length += 1;
    }

    /// The used entries move down by one; the place that comes free keeps what it has.
    fn leave(&mut self) -> Entry {
        let head = self.entries[0];
        self.entries.copy_within(1..self.length as usize, 0);
        self.length -= 1;
        head
    }
}

type Row = (u8, fn(&State, &Record) -> bool);

/// The table of the steps' refusals, in its order. A row may count on those above it not applying.
pub const REFUSALS: [Row; 13] = [
    (17, |state, _| state.is_unsound()),
    (11, |_, action| !(R..=CI).contains(&action.kind)),
    (12, |state, action| action.engine == 0 || action.engine > state.sizes.engines),
    (13, |state, action| FREE[action.kind as usize].address && action.address >= state.sizes.addresses),
    (14, |_, action| FREE[action.kind as usize].forbids(action)),
    (21, |state, action| action.kind == R && state.out_of(action).length > 0),
    (22, |state, action| action.kind == R && state.in_of(action).used().iter().any(|e| e.origin == action.engine)),
    (23, |state, action| action.kind == R && !state.cache_of(action).present[action.address as usize]),
    (24, |state, action| action.kind == W && state.out_of(action).length >= state.sizes.depth),
    (25, |state, action| action.kind == MW && state.out_of(action).length == 0),
    (26, |state, action| action.kind == MW && state.counting_ins().iter().any(|q| q.length >= state.sizes.depth)),
    (27, |state, action| action.kind == MR && state.in_of(action).length >= state.sizes.depth),
    (28, |state, action| action.kind == CU && state.in_of(action).length == 0),
];

/// Which fields of an action a kind leaves free; it holds the others at 0. The origin is never free.
#[derive(Clone, Copy)]
struct Free {
    address: bool,
    data: bool,
}

/// By kind, from 0, which is no kind: R, W, MW, MR, CU, CI.
const FREE: [Free; 7] = [
    Free { address: false, data: false },
    Free { address: true, data: false },
    Free { address: true, data: true },
    Free { address: false, data: false },
    Free { address: true, data: false },
    Free { address: false, data: false },
    Free { address: true, data: false },
];

impl Free {
    fn forbids(self, action: &Record) -> bool {
        action.origin != 0 || (!self.address && action.address != 0) || (!self.data && action.data != 0)
    }
}

impl State {
    /// "A size out of range, a queue longer than the depth, or an entry in a queue with origin above the
    /// engine count, or address not below m". With a size out of range nothing else is looked at.
    fn is_unsound(&self) -> bool {
        let Sizes { engines, addresses, depth } = self.sizes;
        if !(1..=8).contains(&engines) || !(1..=64).contains(&addresses) || !(1..=32).contains(&depth) {
            return true;
        }
        let counting = engines as usize;
        let bad_out = |q: &Queue<OutEntry>| q.length > depth || q.used().iter().any(|e| e.address >= addresses);
        let bad_entry = |e: &InEntry| e.origin > engines || e.address >= addresses;
        let bad_in = |q: &Queue<InEntry>| q.length > depth || q.used().iter().any(bad_entry);
        self.outs[..counting].iter().any(bad_out) || self.ins[..counting].iter().any(bad_in)
    }

    fn out_of(&self, action: &Record) -> &Queue<OutEntry> {
        &self.outs[action.engine as usize - 1]
    }

    fn in_of(&self, action: &Record) -> &Queue<InEntry> {
        &self.ins[action.engine as usize - 1]
    }

    fn cache_of(&self, action: &Record) -> &Cache {
        &self.caches[action.engine as usize - 1]
    }

    fn counting_ins(&self) -> &[Queue<InEntry>] {
        &self.ins[..self.sizes.engines as usize]
    }

    /// The first number of the table that applies; 0 if none does.
    pub fn refusal(&self, action: &Record) -> u8 {
        REFUSALS.iter().find(|(_, applies)| applies(self, action)).map_or(0, |(number, _)| *number)
    }

    /// The number, the next state and the event; a refused step gives the state back and eight zero bytes.
    pub fn step(&self, action: &Record) -> (u8, State, Record) {
        let number = self.refusal(action);
        let mut next = *self;
        let event = if number == 0 { next.carry_out(*action) } else { Record::default() };
        (number, next, event)
    }

    fn carry_out(&mut self, action: Record) -> Record {
        let (own, at) = (action.engine as usize - 1, action.address as usize);
        match action.kind {
            R => Record { data: self.caches[own].data[at], ..action },
            W => {
                self.outs[own].join(OutEntry { address: action.address, data: action.data });
                action
            }
            MW => {
                let OutEntry { address, data } = self.outs[own].leave();
                self.memory[address as usize] = data;
                let counting = self.sizes.engines as usize;
                self.ins[..counting].iter_mut().for_each(|q| q.join(InEntry { origin: action.engine, address, data }));
                Record { address, data, ..action }
            }
            MR => {
                let data = self.memory[at];
                self.ins[own].join(InEntry { origin: 0, address: action.address, data });
                Record { data, ..action }
            }
            CU => {
                let InEntry { origin, address, data } = self.ins[own].leave();
                self.caches[own].present[address as usize] = true;
                self.caches[own].data[address as usize] = data;
                Record { origin, address, data, ..action }
            }
            _ => {
                self.caches[own].present[at] = false;
                action
            }
        }
    }
}
