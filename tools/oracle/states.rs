//! Items for the program `states`: a drawn state and action, each drawn for something; and its answers.

use crate::chunks::fnv;
use crate::drawn_state::{self, SPOILS};
use crate::random::Random;
use crate::sound::{drawn_data, mangled, spoil_a_blank};
use crate::state_bytes::{item_from_bytes, item_to_bytes, state_to_bytes, ITEM};
use crate::store::{Record, CI, R, W};
use crate::whole::{State, REFUSALS};
use std::collections::BTreeMap;

/// Draws enough that what an item is drawn for is found.
const TRIES: usize = 2_000;

/// What an item is drawn for.
#[derive(Clone, Copy, Debug)]
enum Aim {
    /// A step of this kind that is accepted.
    Accepted(u8),
    /// A refusal other than 17 with this number.
    Refused(u8),
    /// A state that is spoiled in this way, with an action that may be wrong too.
    Unsound(usize),
    /// A sound state, and an action with bytes knocked about: several refusals apply, and their order counts.
    Mangled,
}

/// One round of items.
fn round() -> Vec<Aim> {
    let accepted = (R..=CI).map(Aim::Accepted);
    let refused = REFUSALS[1..].iter().map(|(number, _)| Aim::Refused(*number));
    let unsound = (0..SPOILS.len()).map(Aim::Unsound);
    accepted.clone().chain(refused).chain(unsound).chain([Aim::Mangled; 2]).chain(accepted).collect()
}

pub fn items_of(seed: u64, count: usize) -> Vec<(State, Record)> {
    let mut random = Random::new(seed);
    round().iter().cycle().take(count).map(|aim| item(&mut random, *aim)).collect()
}

fn item(random: &mut Random, aim: Aim) -> (State, Record) {
    let found = (0..TRIES).find_map(|_| try_for(random, aim));
    found.unwrap_or_else(|| panic!("no item was drawn for {aim:?}"))
}

fn try_for(random: &mut Random, aim: Aim) -> Option<(State, Record)> {
    let mut state = drawn_state::sound_state(random);
    let mut action = drawn_action(random, &state);
    let wanted = match aim {
        Aim::Accepted(kind) => action.kind == kind && state.refusal(&action) == 0,
        Aim::Refused(number) => {
            spoil_form(random, &state, &mut action, number);
            state.refusal(&action) == number
        }
        Aim::Unsound(way) => {
            if random.percent(40) {
                action = mangled(random, action);
            }
            SPOILS[way](random, &mut state)?;
            true
        }
        Aim::Mangled => {
            action = mangled(random, action);
            true
        }
    };
    wanted.then_some((state, action))
}

/// A well-formed action, allowed or not.
fn drawn_action(random: &mut Random, state: &State) -> Record {
    let kind = random.between(R as usize, CI as usize) as u8;
    let engine = random.between(1, state.sizes.engines as usize) as u8;
    let mut action = Record { kind, engine, ..Record::default() };
    if action.names_an_address() {
        action.address = random.below(state.sizes.addresses as usize) as u8;
    }
    if kind == W {
        action.data = drawn_data(random);
    }
    action
}

fn spoil_form(random: &mut Random, state: &State, action: &mut Record, number: u8) {
    match number {
        11 => action.kind = random.pick(&[0, 7, 8, 255]),
        12 => action.engine = random.pick(&[0, state.sizes.engines + 1, 9, 255]),
        13 => action.address = random.pick(&[state.sizes.addresses, 64, 128, 255]),
        14 => spoil_a_blank(random, action),
        _ => {}
    }
}

pub fn join(items: &[(State, Record)]) -> Vec<u8> {
    items.iter().flat_map(|(state, action)| item_to_bytes(state, action)).collect()
}

/// An item that ends too early: nothing can follow it.
pub fn cut_short(seed: u64) -> Vec<u8> {
    let mut random = Random::new(seed);
    let mut bytes = join(&[item(&mut random, Aim::Mangled)]);
    bytes.truncate(random.between(1, ITEM - 1));
    bytes
}

fn hex(bytes: &[u8]) -> String {
    bytes.iter().map(|byte| format!("{byte:02x}")).collect()
}

/// What `states` prints for one item: the number, the event, the next state; and that both steps gave it.
fn answer_one(item: &[u8]) -> String {
    let (state, action) = item_from_bytes(item);
    let (number, next, event) = state.step(&action);
    format!("{number} {} {:016x} same\n", hex(&event.to_bytes()), fnv(&state_to_bytes(&next)))
}

pub fn answer(input: &[u8]) -> String {
    let whole = input.chunks_exact(ITEM);
    let cut_short = if whole.remainder().is_empty() { "" } else { "cut short\n" };
    whole.map(answer_one).collect::<String>() + cut_short
}

/// How often each number is the answer; one never reached has 0.
pub fn reached(input: &[u8]) -> BTreeMap<u8, usize> {
    let mut numbers: BTreeMap<u8, usize> = REFUSALS.iter().map(|(number, _)| (*number, 0)).collect();
    for item in input.chunks_exact(ITEM) {
        let (state, action) = item_from_bytes(item);
        *numbers.entry(state.refusal(&action)).or_insert(0) += 1;
    }
    numbers
}

pub fn reached_text(input: &[u8]) -> String {
    let numbers = reached(input);
    let lines: String = numbers.iter().map(|(number, times)| format!("{number:>2} {times}\n")).collect();
    format!("items {}\n{lines}", input.len() / ITEM)
}
