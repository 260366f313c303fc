//! Lists on the wire: the reader with its refusals, and a writer.

use crate::store::{Record, Sizes};

pub const MOST_ACTIONS: usize = 2_048;
/// What a program hands to the run at most: one byte above the largest list.
pub const HANDED: usize = 16_649;

#[derive(Clone)]
pub struct List {
    pub sizes: Sizes,
    pub memory: Vec<u32>,
    pub actions: Vec<Record>,
}

fn number(bytes: &[u8]) -> u32 {
    u32::from_be_bytes(bytes.try_into().expect("four bytes"))
}

/// The reader: the list, or the first refusal that applies.
pub fn read(bytes: &[u8]) -> Result<List, u8> {
    if bytes.len() < 8 {
        return Err(1);
    }
    if number(&bytes[..4]) as usize != bytes.len() - 4 {
        return Err(2);
    }
    if bytes[4] != 1 {
        return Err(3);
    }
    let sizes = Sizes { engines: bytes[5], addresses: bytes[6], depth: bytes[7] };
    check_sizes(sizes)?;
    let memory_end = 8 + 4 * sizes.addresses as usize;
    if bytes.len() < memory_end {
        return Err(7);
    }
    if (bytes.len() - memory_end) % 8 != 0 {
        return Err(8);
    }
    if (bytes.len() - memory_end) / 8 > MOST_ACTIONS {
        return Err(9);
    }
    let memory = bytes[8..memory_end].chunks(4).map(number).collect();
    let actions = bytes[memory_end..].chunks(8).map(Record::from_bytes).collect();
    Ok(List { sizes, memory, actions })
}

/// 4, 5 or 6 where a size is out of its range.
pub fn check_sizes(sizes: Sizes) -> Result<(), u8> {
    if !(1..=8).contains(&sizes.engines) {
        Err(4)
    } else if !(1..=64).contains(&sizes.addresses) {
        Err(5)
    } else if !(1..=32).contains(&sizes.depth) {
        Err(6)
    } else {
        Ok(())
    }
}

/// Sets the length field to what the bytes say, so that only what else is wrong is refused.
pub fn set_length(bytes: &mut [u8]) {
    let after = bytes.len() as u32 - 4;
    bytes[..4].copy_from_slice(&after.to_be_bytes());
}

/// A list's bytes, whatever its sizes are: damaged lists are written by this too.
pub fn write(list: &List) -> Vec<u8> {
    let Sizes { engines, addresses, depth } = list.sizes;
    let mut bytes = vec![0, 0, 0, 0, 1, engines, addresses, depth];
    bytes.extend(list.memory.iter().flat_map(|value| value.to_be_bytes()));
    bytes.extend(list.actions.iter().flat_map(|action| action.to_bytes()));
    set_length(&mut bytes);
    bytes
}
