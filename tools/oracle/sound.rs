//! Lists that the reader takes, made by running a store beside them: a step is mostly one that the
//! store allows at that moment, so that long runs get somewhere, and queues fill where they are to.

use crate::list::{List, MOST_ACTIONS};
use crate::random::Random;
use crate::store::{Record, Sizes, Store, CI, CU, MR, MW, R, W};

/// How often each kind is drawn, in the order of the kinds: R, W, MW, MR, CU, CI.
type Weights = [usize; 6];
const EVEN: Weights = [30, 8, 22, 6, 32, 2];
const READING: Weights = [50, 4, 16, 4, 24, 2];
const FILLING: Weights = [6, 40, 25, 22, 5, 2];
const LAGGING: Weights = [20, 22, 32, 8, 16, 2];
const DRAINING: Weights = [25, 1, 30, 2, 40, 2];
const STYLES: [Weights; 5] = [EVEN, READING, FILLING, LAGGING, DRAINING];

/// The steps' refusals, in the order of the table. 17 is not among them: no list reaches it.
pub const STEP_REFUSALS: [u8; 12] = [11, 12, 13, 14, 21, 22, 23, 24, 25, 26, 27, 28];

/// Draws enough that a step which is allowed at all is nearly always found.
const TRIES: usize = 40;

/// What a list is to be like.
#[derive(Clone, Copy)]
pub struct Plan {
    pub sizes: Sizes,
    pub actions: usize,
    /// Only addresses below this one are drawn: few, and caches hold what is read.
    pub hot: u8,
    /// Of a hundred actions, those that are aimed at a refusal, and those with bytes knocked about.
    pub aimed: usize,
    pub mangled: usize,
    /// Of a hundred actions, those after which another style is taken up.
    pub restless: usize,
    pub style: Weights,
}

impl Plan {
    /// A list with nothing but steps that are likely to be accepted.
    pub fn plain(sizes: Sizes, actions: usize) -> Plan {
        Plan { sizes, actions, hot: sizes.addresses, aimed: 0, mangled: 0, restless: 0, style: EVEN }
    }

    pub fn drawn(random: &mut Random) -> Plan {
        let sizes = drawn_sizes(random);
        let (aimed, mangled) = random.pick(&[(0, 0), (3, 1), (3, 1), (6, 2), (12, 4), (40, 20)]);
        let hot =
            if random.percent(25) { sizes.addresses } else { random.between(1, sizes.addresses.min(4) as usize) as u8 };
        let restless = random.pick(&[0, 2, 5, 15]);
        Plan { sizes, actions: drawn_length(random), hot, aimed, mangled, restless, style: random.pick(&STYLES) }
    }
}

/// Each size is at one of its ends as often as anywhere between them.
pub fn drawn_sizes(random: &mut Random) -> Sizes {
    let few_or_more = |random: &mut Random, most: usize| {
        let drawn = match random.weighted(&[20, 15, 40, 25]) {
            0 => 1,
            1 => most,
            2 => random.between(2, most.min(4)),
            _ => random.between(2, most - 1),
        };
        drawn as u8
    };
    Sizes { engines: few_or_more(random, 8), addresses: few_or_more(random, 64), depth: few_or_more(random, 32) }
}

/// Mostly short, as short lists go through more states for the bytes they take; some of full length.
fn drawn_length(random: &mut Random) -> usize {
    match random.weighted(&[2, 30, 50, 14, 3, 1]) {
        0 => 0,
        1 => random.between(1, 12),
        2 => random.between(13, 60),
        3 => random.between(61, 200),
        4 => random.between(201, 800),
        _ => MOST_ACTIONS,
    }
}

pub fn drawn_data(random: &mut Random) -> u32 {
    match random.weighted(&[6, 80, 10, 2, 2]) {
        0 => 0,
        1 => random.between(1, 99) as u32,
        2 => random.next() as u32,
        3 => u32::MAX,
        _ => 1 << random.below(32),
    }
}

/// Makes a list to a plan.
pub fn list(random: &mut Random, mut plan: Plan) -> List {
    let memory: Vec<u32> = (0..plan.sizes.addresses).map(|_| drawn_data(random)).collect();
    let mut store = Store::fresh(plan.sizes, &memory);
    let mut actions = Vec::new();
    while actions.len() < plan.actions {
        if random.percent(plan.restless) {
            plan.style = random.pick(&STYLES);
        }
        let action = drawn_action(random, &plan, &store);
        // a refused step changes nothing, and its number is of no use here
        let _ = store.step(action);
        actions.push(action);
    }
    List { sizes: plan.sizes, memory, actions }
}

fn drawn_action(random: &mut Random, plan: &Plan, store: &Store) -> Record {
    if random.percent(plan.mangled) {
        let action = candidate(random, plan, &plan.style);
        return mangled(random, action);
    }
    if random.percent(plan.aimed) {
        let number = random.pick(&STEP_REFUSALS);
        if let Some(action) = aimed_at(random, plan, store, number) {
            return action;
        }
    }
    let allowed = (0..TRIES).find_map(|_| allowed_of_a_kind(random, plan, store));
    allowed.unwrap_or_else(|| candidate(random, plan, &plan.style))
}

/// Draws the kind first and then one of its allowed actions: were both drawn at once, reads would be
/// rare, as few engines may read at any moment and few addresses are in their caches.
fn allowed_of_a_kind(random: &mut Random, plan: &Plan, store: &Store) -> Option<Record> {
    let drawn = candidate(random, plan, &plan.style);
    let addresses = if drawn.names_an_address() { plan.hot } else { 1 };
    let each = |engine| (0..addresses).map(move |address| Record { engine, address, ..drawn });
    let all = (1..=plan.sizes.engines).flat_map(each);
    let allowed: Vec<Record> = all.filter(|action| store.refusal(action) == 0).collect();
    (!allowed.is_empty()).then(|| random.pick(&allowed))
}

/// A well-formed action, allowed or not.
fn candidate(random: &mut Random, plan: &Plan, weights: &Weights) -> Record {
    let kind = random.weighted(weights) as u8 + R;
    let mut action = Record { kind, engine: random.between(1, plan.sizes.engines as usize) as u8, ..Record::default() };
    if action.names_an_address() {
        action.address = random.below(plan.hot as usize) as u8;
    }
    if kind == W {
        action.data = drawn_data(random);
    }
    action
}

/// One to three bytes of an action changed, so that several refusals apply and their order counts.
pub fn mangled(random: &mut Random, action: Record) -> Record {
    let mut bytes = action.to_bytes();
    for _ in 0..random.between(1, 3) {
        bytes[random.below(8)] = random.pick(&[0, 1, 2, 5, 6, 7, 8, 9, 31, 63, 64, 65, 128, 255]);
    }
    Record::from_bytes(&bytes)
}

/// An action that this store refuses with this number, if one was found.
fn aimed_at(random: &mut Random, plan: &Plan, store: &Store, number: u8) -> Option<Record> {
    let refused_so = |action: &Record| store.refusal(action) == number;
    (0..TRIES).map(|_| spoiled(random, plan, number)).find(refused_so)
}

/// A candidate of the kind that can have this refusal, spoiled where the refusal is for bad form.
fn spoiled(random: &mut Random, plan: &Plan, number: u8) -> Record {
    let kinds: Vec<u8> = match number {
        13 => vec![R, W, MR, CI],
        21..=23 => vec![R],
        24 => vec![W],
        25 | 26 => vec![MW],
        27 => vec![MR],
        28 => vec![CU],
        _ => vec![R, W, MW, MR, CU, CI],
    };
    let mut weights = [0; 6];
    weights[random.pick(&kinds) as usize - 1] = 1;
    let mut action = candidate(random, plan, &weights);
    match number {
        11 => action.kind = random.pick(&[0, 7, 8, 255]),
        12 => action.engine = random.pick(&[0, plan.sizes.engines + 1, 9, 255]),
        13 => action.address = random.pick(&[plan.sizes.addresses, 64, 128, 255]),
        14 => spoil_a_blank(random, &mut action),
        _ => {}
    }
    action
}

pub fn spoil_a_blank(random: &mut Random, action: &mut Record) {
    match random.below(3) {
        0 => action.origin = random.pick(&[1, 2, 255]),
        1 if !action.names_an_address() => action.address = random.pick(&[1, 63, 255]),
        _ if action.kind != W => action.data = random.pick(&[1, 1 << 8, 1 << 31, u32::MAX]),
        _ => action.origin = 1,
    }
}
