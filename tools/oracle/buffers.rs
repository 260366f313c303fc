//! Chunks for the program `buffers`, and what it prints: a run and the writer handed buffers that are too
//! short by one byte, exactly long enough, and longer. The words `untouched` and `same` are the document's
//! promise: bytes past what is written stay, and on a refusal all do.

use crate::account::Placed;
use crate::chunks::{self, fnv};
use crate::list::{self, List, HANDED, MOST_ACTIONS};
use crate::random::Random;
use crate::run::{self, Run};
use crate::sound::{self, Plan};
use crate::store::{Record, Sizes};
use crate::{cases, damage, stretched};

/// Buffers with room for every list: 8 bytes for each of 2,048 actions, 12 for each event.
const FULL: [usize; 2] = [8 * MOST_ACTIONS, 12 * MOST_ACTIONS];
/// How many bytes the longer buffers have to spare: no multiple of a record's or a line's width.
const TRACE_SPARE: usize = 5;
const ACCOUNT_SPARE: usize = 7;
const OUTPUT_SPARE: usize = 11;

/// Drawn lists have at most this many actions, and damaged ones about as many bytes as those have.
const FEW_ACTIONS: usize = 24;
const FEW_BYTES: usize = 500;
/// Draws enough that a wanted one is found.
const TRIES: usize = 10_000;
/// Of a hundred drawn chunks, those that are damaged.
const DAMAGED: usize = 15;

/// B1 to B9, the longest list and one that is too long, one for each other number of the reader, then
/// drawn lists.
pub fn chunks_of(seed: u64, count: usize) -> Vec<Vec<u8>> {
    let mut random = Random::new(seed);
    let mut chunks: Vec<Vec<u8>> = cases::CASES.iter().map(|case| list::write(&case.list())).collect();
    let mut longest = stretched::lists()[0].clone();
    chunks.push(list::write(&longest));
    longest.actions.push(Record::default());
    chunks.push(list::write(&longest));
    chunks.extend((1..=8).map(|number| small_damaged(&mut random, |bytes| list::read(bytes).err() == Some(number))));
    while chunks.len() < count {
        let is_damaged = random.percent(DAMAGED);
        chunks.push(if is_damaged { small_damaged(&mut random, |_| true) } else { small_sound(&mut random) });
    }
    chunks.truncate(count);
    chunks
}

fn small_sound(random: &mut Random) -> Vec<u8> {
    let mut plan = Plan::drawn(random);
    plan.actions = plan.actions.min(FEW_ACTIONS);
    list::write(&sound::list(random, plan))
}

fn small_damaged(random: &mut Random, wanted: impl Fn(&[u8]) -> bool) -> Vec<u8> {
    let drawn = (0..TRIES).map(|_| damage::damaged(random)).find(|bytes| bytes.len() <= FEW_BYTES && wanted(bytes));
    drawn.expect("enough draws")
}

/// What a run with buffers of these lengths answers, and the bytes that it writes.
struct Lent {
    number: u8,
    counts: [usize; 4],
    trace: Vec<u8>,
    account: Vec<u8>,
}

fn lent(list: &[u8], trace_room: usize, account_room: usize) -> Lent {
    let refused = |number| Lent { number, counts: [0; 4], trace: Vec::new(), account: Vec::new() };
    let run = match run::run(list) {
        Ok(run) => run,
        Err(number) => return refused(number),
    };
    let (trace, account) = (run.trace_bytes(), account_bytes(&run));
    if trace_room < trace.len() {
        return refused(29);
    }
    if account_room < account.len() {
        return refused(30);
    }
    let accepted = run.events().len();
    let counts = [accepted, run.trace.len() - accepted, run.account.len(), run.settled];
    Lent { number: 0, counts, trace, account }
}

/// "An 8-byte event of kind 1 or 2, then big-endian the slot or write number, or FFFFFFFF if unpublished."
fn account_bytes(run: &Run) -> Vec<u8> {
    let number = |placed: &Placed| placed.number.map_or(u32::MAX, |number| number as u32).to_be_bytes().to_vec();
    run.account.iter().flat_map(|placed| [placed.event.to_bytes(), number(placed)].concat()).collect()
}

fn run_line(name: &str, list: &[u8], rooms: [usize; 2]) -> String {
    let Lent { number, counts: [accepted, refused, events, settled], trace, account } = lent(list, rooms[0], rooms[1]);
    let counts = format!("{accepted} {refused} {events} {settled}");
    format!("{name} {number} {counts} untouched {:016x} {:016x}\n", fnv(&trace), fnv(&account))
}

/// The writer: the list's bytes, or the first refusal that applies.
fn written(sizes: Sizes, memory: &[u32], actions: &[u8], room: usize) -> Result<Vec<u8>, u8> {
    list::check_sizes(sizes)?;
    let head = List { sizes, memory: memory.to_vec(), actions: Vec::new() };
    let mut bytes = list::write(&head);
    bytes.extend(actions);
    list::set_length(&mut bytes);
    let refusals = [
        (10, memory.len() != sizes.addresses as usize),
        (8, actions.len() % 8 != 0),
        (9, actions.len() / 8 > MOST_ACTIONS),
        (30, room < bytes.len()),
    ];
    refusals.iter().find(|(_, applies)| *applies).map_or(Ok(bytes), |(number, _)| Err(*number))
}

fn write_line(name: &str, given: &[u8], read: &List, room: usize) -> String {
    let actions: Vec<u8> = read.actions.iter().flat_map(|action| action.to_bytes()).collect();
    match written(read.sizes, &read.memory, &actions, room) {
        Err(number) => format!("{name} {number} 0 untouched\n"),
        Ok(bytes) => {
            let same = if bytes == given { "same" } else { "DIFFERS" };
            format!("{name} 0 {} untouched {same}\n", bytes.len())
        }
    }
}

/// What `buffers` prints for one chunk.
fn answer_one(given: &[u8]) -> String {
    let mut text = format!("list {}\n", given.len()) + &run_line("run full", given, FULL);
    let Ok(read) = list::read(given) else {
        return text + &run_line("run nothing", given, [0, 0]);
    };
    let whole = lent(given, FULL[0], FULL[1]);
    let (trace, account) = (whole.trace.len(), whole.account.len());
    text += &run_line("run exact", given, [trace, account]);
    text += &run_line("run longer", given, [trace + TRACE_SPARE, account + ACCOUNT_SPARE]);
    if trace > 0 {
        text += &run_line("run short trace", given, [trace - 1, account]);
    }
    if account > 0 {
        text += &run_line("run short account", given, [trace, account - 1]);
        text += &run_line("run both short", given, [trace - 1, account - 1]);
    }
    text += &write_line("write short", given, &read, given.len() - 1);
    text += &write_line("write exact", given, &read, given.len());
    text + &write_line("write longer", given, &read, given.len() + OUTPUT_SPARE)
}

/// What the writer is handed before the first chunk: engines, addresses, depth, how many words the memory
/// table has, how many bytes the actions have, and how many the output has.
const ROWS: [[usize; 6]; 30] = [
    // 4, 5 and 6: each size just out of its range, and far out
    [0, 1, 1, 1, 8, 64],
    [9, 1, 1, 1, 8, 64],
    [255, 1, 1, 1, 8, 64],
    [1, 0, 1, 0, 8, 64],
    [1, 65, 1, 65, 8, 400],
    [1, 255, 1, 65, 8, 400],
    [1, 1, 0, 1, 8, 64],
    [1, 1, 33, 1, 8, 64],
    [1, 1, 255, 1, 8, 64],
    // 10: a table with one word too few or too many
    [1, 1, 1, 0, 8, 64],
    [1, 1, 1, 2, 8, 64],
    [8, 64, 32, 63, 8, 400],
    [8, 64, 32, 65, 8, 400],
    // 8 and 9: bytes that are no actions, one action too many, and the most there may be
    [1, 1, 1, 1, 1, 64],
    [1, 1, 1, 1, 7, 64],
    [1, 1, 1, 1, 9, 64],
    [1, 1, 1, 1, 16_392, 16_600],
    [1, 1, 1, 1, 16_384, 16_600],
    // 30: one byte too few and just enough, at both ends
    [1, 1, 1, 1, 0, 0],
    [1, 1, 1, 1, 0, 11],
    [1, 1, 1, 1, 0, 12],
    [8, 64, 32, 64, 16_384, 16_647],
    [8, 64, 32, 64, 16_384, 16_648],
    // the order: all that is asked later is wrong too
    [9, 65, 33, 0, 16_393, 0],
    [1, 65, 33, 0, 16_393, 0],
    [1, 1, 33, 0, 16_393, 0],
    [1, 1, 1, 0, 16_393, 0],
    [1, 1, 1, 1, 16_393, 0],
    [1, 1, 1, 1, 16_392, 0],
    [1, 1, 1, 1, 16_384, 0],
];

/// The actions' bytes of every row: none of them is judged by the writer.
fn pattern(place: usize) -> u8 {
    (place + 0xa5) as u8
}

fn row_line(row: &[usize; 6]) -> String {
    let [engines, addresses, depth, table, actions, room] = *row;
    let sizes = Sizes { engines: engines as u8, addresses: addresses as u8, depth: depth as u8 };
    let memory: Vec<u32> = (0..table as u32).map(|place| 0x0102_0304 + place).collect();
    let actions: Vec<u8> = (0..actions).map(pattern).collect();
    let words: String = row.iter().map(|number| format!(" {number}")).collect();
    let (number, bytes) = match written(sizes, &memory, &actions, room) {
        Ok(bytes) => (0, bytes),
        Err(number) => (number, Vec::new()),
    };
    format!("write{words} is {number} {} untouched {:016x}\n", bytes.len(), fnv(&bytes))
}

/// What `buffers` prints. A chunk longer than what a run is handed ends it, as one that is cut short does.
pub fn answer(input: &[u8]) -> String {
    let mut text: String = ROWS.iter().map(row_line).collect();
    let (chunks, cut_short) = chunks::split(input);
    let fitting = chunks.iter().take_while(|chunk| chunk.len() <= HANDED).count();
    text.extend(chunks[..fitting].iter().map(|chunk| answer_one(chunk)));
    text + chunks::end_text(cut_short || fitting < chunks.len())
}
