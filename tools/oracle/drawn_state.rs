//! Drawn states: sound ones of all fillings, with whatever in their unused places, and ways to spoil one.

use crate::random::Random;
use crate::sound::{drawn_data, drawn_sizes};
use crate::store::Sizes;
use crate::whole::{Cache, InEntry, OutEntry, Queue, State};

/// What a drawn state is like. Fresh: all is empty, and unused places are 0.
#[derive(Clone, Copy, PartialEq)]
enum Filling {
    Fresh,
    Empty,
    Mixed,
    NearlyFull,
    Full,
}

/// Mixed ones as often as the others together.
const FILLINGS: [Filling; 8] = [
    Filling::Fresh,
    Filling::Empty,
    Filling::NearlyFull,
    Filling::Full,
    Filling::Mixed,
    Filling::Mixed,
    Filling::Mixed,
    Filling::Mixed,
];

fn drawn_length(random: &mut Random, depth: u8, filling: Filling) -> u8 {
    let depth = depth as usize;
    let length = match filling {
        Filling::Fresh | Filling::Empty => 0,
        Filling::NearlyFull => depth - 1,
        Filling::Full => depth,
        Filling::Mixed => match random.weighted(&[40, 15, 15, 30]) {
            0 => 0,
            1 => depth,
            2 => depth - 1,
            _ => random.between(0, depth),
        },
    };
    length as u8
}

/// What an unused place may hold: as often what would be sound there as what would not be.
fn any_engine(random: &mut Random, sizes: Sizes) -> u8 {
    let below = random.between(0, sizes.engines as usize) as u8;
    random.pick(&[below, below, sizes.engines + 1, 9, 255])
}

fn any_address(random: &mut Random, sizes: Sizes) -> u8 {
    let below = random.below(sizes.addresses as usize) as u8;
    random.pick(&[below, below, sizes.addresses, 64, 255])
}

fn any_in_entry(random: &mut Random, sizes: Sizes) -> InEntry {
    InEntry { origin: any_engine(random, sizes), address: any_address(random, sizes), data: drawn_data(random) }
}

fn any_out_entry(random: &mut Random, sizes: Sizes) -> OutEntry {
    OutEntry { address: any_address(random, sizes), data: drawn_data(random) }
}

fn sound_in_entry(random: &mut Random, sizes: Sizes) -> InEntry {
    let origin = random.between(0, sizes.engines as usize) as u8;
    InEntry { origin, address: random.below(sizes.addresses as usize) as u8, data: drawn_data(random) }
}

fn sound_out_entry(random: &mut Random, sizes: Sizes) -> OutEntry {
    OutEntry { address: random.below(sizes.addresses as usize) as u8, data: drawn_data(random) }
}

fn drawn_cache(random: &mut Random, filling: Filling) -> Cache {
    let share = if filling == Filling::Empty { 0 } else { random.pick(&[10, 50, 50, 90, 100]) };
    Cache { present: std::array::from_fn(|_| random.percent(share)), data: std::array::from_fn(|_| drawn_data(random)) }
}

fn zeros(sizes: Sizes) -> State {
    let cache = Cache { present: [false; 64], data: [0; 64] };
    let out_queue = Queue { length: 0, entries: [OutEntry { address: 0, data: 0 }; 32] };
    let in_queue = Queue { length: 0, entries: [InEntry { origin: 0, address: 0, data: 0 }; 32] };
    State { sizes, memory: [0; 64], caches: [cache; 8], outs: [out_queue; 8], ins: [in_queue; 8] }
}

/// A fresh store of a list, with whatever in its unused places.
pub fn fresh_state(random: &mut Random, sizes: Sizes, memory: &[u32]) -> State {
    let mut state = zeros(sizes);
    state.memory[..memory.len()].copy_from_slice(memory);
    litter(random, &mut state);
    state
}

/// A sound state, at one of a size's ends as often as not.
pub fn sound_state(random: &mut Random) -> State {
    let sizes = drawn_sizes(random);
    let mut state = zeros(sizes);
    let counting = sizes.engines as usize;
    for word in &mut state.memory[..sizes.addresses as usize] {
        *word = drawn_data(random);
    }
    let filling = random.pick(&FILLINGS);
    if filling == Filling::Fresh {
        return state;
    }
    litter(random, &mut state);
    state.caches = std::array::from_fn(|_| drawn_cache(random, filling));
    for queue in &mut state.outs[..counting] {
        queue.length = drawn_length(random, sizes.depth, filling);
        queue.entries[..queue.length as usize].fill_with(|| sound_out_entry(random, sizes));
    }
    for queue in &mut state.ins[..counting] {
        queue.length = drawn_length(random, sizes.depth, filling);
        queue.entries[..queue.length as usize].fill_with(|| sound_in_entry(random, sizes));
    }
    state
}

/// Puts whatever into every unused place of a sound state: words past the addresses, the data of what is
/// absent from a cache, queues' places from their lengths on, and all of the engines above the count.
pub fn litter(random: &mut Random, state: &mut State) {
    let sizes = state.sizes;
    let (counting, addresses) = (sizes.engines as usize, sizes.addresses as usize);
    for word in &mut state.memory[addresses..] {
        *word = drawn_data(random);
    }
    for (place, cache) in state.caches.iter_mut().enumerate() {
        for at in 0..cache.present.len() {
            if place >= counting || at >= addresses {
                cache.present[at] = random.percent(50);
                cache.data[at] = drawn_data(random);
            } else if !cache.present[at] {
                cache.data[at] = drawn_data(random);
            }
        }
    }
    for place in 0..state.outs.len() {
        let (out_queue, in_queue) = (&mut state.outs[place], &mut state.ins[place]);
        if place >= counting {
            out_queue.length = random.pick(&[0, 1, sizes.depth, 33, 255]);
            in_queue.length = random.pick(&[0, 1, sizes.depth, 33, 255]);
        }
        let from = |length: u8| if place < counting { length as usize } else { 0 };
        out_queue.entries[from(out_queue.length)..].fill_with(|| any_out_entry(random, sizes));
        in_queue.entries[from(in_queue.length)..].fill_with(|| any_in_entry(random, sizes));
    }
}

/// A way to make a sound state unsound, if this state lets itself be spoiled so.
pub type Spoil = fn(&mut Random, &mut State) -> Option<()>;

/// Each way that the table's line 17 names, and no two at once.
pub const SPOILS: [Spoil; 16] = [
    |_, state| set(&mut state.sizes.engines, 0),
    |_, state| set(&mut state.sizes.engines, 9),
    |_, state| set(&mut state.sizes.engines, 255),
    |_, state| set(&mut state.sizes.addresses, 0),
    |_, state| set(&mut state.sizes.addresses, 65),
    |_, state| set(&mut state.sizes.addresses, 255),
    |_, state| set(&mut state.sizes.depth, 0),
    |_, state| set(&mut state.sizes.depth, 33),
    |_, state| set(&mut state.sizes.depth, 255),
    one_too_long_out,
    one_too_long_in,
    |random, state| set(&mut state.outs[counting_place(random, state)].length, random.pick(&[33, 64, 255])),
    |random, state| set(&mut state.ins[counting_place(random, state)].length, random.pick(&[33, 64, 255])),
    |random, state| {
        let outside = random.pick(&[state.sizes.addresses, 64, 255]);
        let (own, place) = used_place(random, state, |state, own| state.outs[own].length)?;
        set(&mut state.outs[own].entries[place].address, outside)
    },
    |random, state| {
        let outside = random.pick(&[state.sizes.addresses, 64, 255]);
        let (own, place) = used_place(random, state, |state, own| state.ins[own].length)?;
        set(&mut state.ins[own].entries[place].address, outside)
    },
    |random, state| {
        let outside = random.pick(&[state.sizes.engines + 1, 9, 255]);
        let (own, place) = used_place(random, state, |state, own| state.ins[own].length)?;
        set(&mut state.ins[own].entries[place].origin, outside)
    },
];

fn set(field: &mut u8, value: u8) -> Option<()> {
    *field = value;
    Some(())
}

/// The place of an engine that counts.
fn counting_place(random: &mut Random, state: &State) -> usize {
    random.below(state.sizes.engines as usize)
}

/// Longer than the depth by one, where there is a place for it; its entries are sound all the same.
fn one_too_long_out(random: &mut Random, state: &mut State) -> Option<()> {
    let (sizes, own) = (state.sizes, counting_place(random, state));
    let queue = &mut state.outs[own];
    queue.length = sizes.depth + 1;
    queue.entries.get_mut(..queue.length as usize)?.fill_with(|| sound_out_entry(random, sizes));
    Some(())
}

fn one_too_long_in(random: &mut Random, state: &mut State) -> Option<()> {
    let (sizes, own) = (state.sizes, counting_place(random, state));
    let queue = &mut state.ins[own];
    queue.length = sizes.depth + 1;
    queue.entries.get_mut(..queue.length as usize)?.fill_with(|| sound_in_entry(random, sizes));
    Some(())
}

/// A used place of a queue that counts: its last one as often as any.
fn used_place(random: &mut Random, state: &State, length: fn(&State, usize) -> u8) -> Option<(usize, usize)> {
    let own = counting_place(random, state);
    let last = (length(state, own) as usize).checked_sub(1)?;
    Some((own, if random.percent(50) { last } else { random.between(0, last) }))
}
