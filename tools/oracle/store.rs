//! The store and its six steps, as the two tables of the document say them.

use std::collections::VecDeque;

pub const R: u8 = 1;
pub const W: u8 = 2;
pub const MW: u8 = 3;
pub const MR: u8 = 4;
pub const CU: u8 = 5;
pub const CI: u8 = 6;

/// An action or an event: eight bytes on the wire.
#[derive(Clone, Copy, Default, PartialEq, Eq, Debug)]
pub struct Record {
    pub kind: u8,
    pub engine: u8,
    pub origin: u8,
    pub address: u8,
    pub data: u32,
}

impl Record {
    pub fn from_bytes(bytes: &[u8]) -> Record {
        let [kind, engine, origin, address, data @ ..]: [u8; 8] = bytes.try_into().expect("a record is eight bytes");
        Record { kind, engine, origin, address, data: u32::from_be_bytes(data) }
    }

    pub fn to_bytes(self) -> Vec<u8> {
        let mut bytes = vec![self.kind, self.engine, self.origin, self.address];
        bytes.extend(self.data.to_be_bytes());
        bytes
    }

    /// What stands in the trace for a step refused with this number.
    pub fn of_refusal(number: u8) -> Record {
        Record { engine: number, ..Record::default() }
    }

    pub fn names_an_address(&self) -> bool {
        [R, W, MR, CI].contains(&self.kind)
    }

    /// Whether every field is 0 that an action of this kind holds at 0.
    pub fn blanks_are_blank(&self) -> bool {
        let address_blank = self.names_an_address() || self.address == 0;
        let data_blank = self.kind == W || self.data == 0;
        self.origin == 0 && address_blank && data_blank
    }
}

#[derive(Clone, Copy, PartialEq, Eq, Debug)]
pub struct Sizes {
    pub engines: u8,
    pub addresses: u8,
    pub depth: u8,
}

#[derive(Clone, Copy)]
pub struct Entry {
    pub origin: u8,
    pub address: u8,
    pub data: u32,
}

#[derive(Clone)]
struct Engine {
    cache: Vec<Option<u32>>,
    out_queue: VecDeque<(u8, u32)>,
    in_queue: VecDeque<Entry>,
}

#[derive(Clone)]
pub struct Store {
    pub sizes: Sizes,
    pub memory: Vec<u32>,
    engines: Vec<Engine>,
}

impl Store {
    pub fn fresh(sizes: Sizes, memory: &[u32]) -> Store {
        let engine = Engine {
            cache: vec![None; sizes.addresses as usize],
            out_queue: VecDeque::new(),
            in_queue: VecDeque::new(),
        };
        Store { sizes, memory: memory.to_vec(), engines: vec![engine; sizes.engines as usize] }
    }

    pub fn out_queue(&self, engine: u8) -> Vec<(u8, u32)> {
        self.engines[engine as usize - 1].out_queue.iter().copied().collect()
    }

    fn full(&self, length: usize) -> bool {
        length >= self.sizes.depth as usize
    }

    /// The first number of the document's table that applies; 0 if none does.
    pub fn refusal(&self, action: &Record) -> u8 {
        if !(R..=CI).contains(&action.kind) {
            11
        } else if action.engine < 1 || action.engine > self.sizes.engines {
            12
        } else if action.names_an_address() && action.address >= self.sizes.addresses {
            13
        } else if !action.blanks_are_blank() {
            14
        } else {
            self.not_now(action)
        }
    }

    /// Why a well-formed action is not allowed in this state; 0 if it is.
    fn not_now(&self, action: &Record) -> u8 {
        let own = &self.engines[action.engine as usize - 1];
        let own_entry_waits = own.in_queue.iter().any(|entry| entry.origin == action.engine);
        match action.kind {
            R if !own.out_queue.is_empty() => 21,
            R if own_entry_waits => 22,
            R if own.cache[action.address as usize].is_none() => 23,
            W if self.full(own.out_queue.len()) => 24,
            MW if own.out_queue.is_empty() => 25,
            MW if self.engines.iter().any(|each| self.full(each.in_queue.len())) => 26,
            MR if self.full(own.in_queue.len()) => 27,
            CU if own.in_queue.is_empty() => 28,
            _ => 0,
        }
    }

    /// Takes one step: its event, or the number it is refused with and no change.
    pub fn step(&mut self, action: Record) -> Result<Record, u8> {
        match self.refusal(&action) {
            0 => Ok(self.carry_out(action)),
            number => Err(number),
        }
    }

    fn carry_out(&mut self, action: Record) -> Record {
        let (engine, address) = (action.engine as usize - 1, action.address as usize);
        let own = &mut self.engines[engine];
        match action.kind {
            R => Record { data: own.cache[address].expect("checked"), ..action },
            W => {
                own.out_queue.push_back((action.address, action.data));
                action
            }
            MW => self.publish(action),
            MR => {
                let data = self.memory[address];
                own.in_queue.push_back(Entry { origin: 0, address: action.address, data });
                Record { data, ..action }
            }
            CU => {
                let Entry { origin, address, data } = own.in_queue.pop_front().expect("checked");
                own.cache[address as usize] = Some(data);
                Record { origin, address, data, ..action }
            }
            _ => {
                own.cache[address] = None;
                action
            }
        }
    }

    /// MW: the writer's own in queue takes the entry like every other.
    fn publish(&mut self, action: Record) -> Record {
        let own = &mut self.engines[action.engine as usize - 1];
        let (address, data) = own.out_queue.pop_front().expect("checked");
        self.memory[address as usize] = data;
        for each in &mut self.engines {
            each.in_queue.push_back(Entry { origin: action.engine, address, data });
        }
        Record { address, data, ..action }
    }
}
