//! Lists on the wire, as far as writing them down needs it.

pub const MOST_ACTIONS: usize = 2_048;
/// One byte more than the largest list: a program hands no more to the run, so no more need be kept.
pub const HANDED: usize = 16_649;
const HEADER: usize = 8;

/// A size of the head, by its word, with its greatest value; the least is 1.
pub const SIZES: [(&str, u8); 3] = [("engines", 8), ("addresses", 64), ("depth", 32)];

pub struct List {
    pub sizes: [u8; 3],
    pub memory: Vec<u32>,
    pub actions: Vec<[u8; 8]>,
}

impl List {
    pub fn to_bytes(&self) -> Vec<u8> {
        let mut after = vec![1];
        after.extend(self.sizes);
        after.extend(self.memory.iter().flat_map(|value| value.to_be_bytes()));
        after.extend(self.actions.concat());
        [(after.len() as u32).to_be_bytes().to_vec(), after].concat()
    }

    /// The list, or the document's number for what the reader refuses.
    pub fn from_bytes(bytes: &[u8]) -> Result<List, u8> {
        if bytes.len() < HEADER {
            return Err(1);
        }
        if number(&bytes[..4]) as usize != bytes.len() - 4 {
            return Err(2);
        }
        if bytes[4] != 1 {
            return Err(3);
        }
        let sizes = [bytes[5], bytes[6], bytes[7]];
        for (place, (_, most)) in SIZES.iter().enumerate() {
            if !(1..=*most).contains(&sizes[place]) {
                return Err(4 + place as u8);
            }
        }
        let memory_bytes = 4 * sizes[1] as usize;
        let (memory, actions) = bytes[HEADER..].split_at_checked(memory_bytes).ok_or(7)?;
        if actions.len() % 8 != 0 {
            return Err(8);
        }
        if actions.len() / 8 > MOST_ACTIONS {
            return Err(9);
        }
        let eight = |action: &[u8]| action.try_into().expect("eight bytes");
        Ok(List {
            sizes,
            memory: memory.chunks(4).map(number).collect(),
            actions: actions.chunks(8).map(eight).collect(),
        })
    }
}

pub fn number(bytes: &[u8]) -> u32 {
    u32::from_be_bytes(bytes.try_into().expect("four bytes"))
}
