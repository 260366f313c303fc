//! The oracle's own tests. Each says what went wrong, or nothing.

use crate::cases::{Case, CASES};
use crate::random::Random;
use crate::state_bytes::{item_from_bytes, item_to_bytes, ITEM};
use crate::store::{Record, Store, W};
use crate::{bad_accounts, buffers, chunks, drawn_state, generate, judge, list, reached, run, states};

type Test = (&'static str, fn() -> Result<(), String>);

const TESTS: [Test; 18] = [
    ("B1 to B9 are as the document says", cases_are_as_said),
    ("B1 has 144 bytes and length field 140", b1_has_its_length),
    ("B7 leaves memory and out queue as before", b7_changes_nothing),
    ("FNV-1a has its known values", fnv_is_fnv),
    ("the judge takes B1's account and not the order of issue", judge_tells_b1_apart),
    ("the judge takes every generated account", judge_takes_generated),
    ("the judge's memory has no address but its own", judge_has_its_addresses),
    ("the judge takes a replay, and counts its accounts and refusals", judge_takes_a_replay),
    ("the judge finds the one bad account of a replay", judge_finds_the_bad_account),
    ("the judge finds a part of a replay that is missing or left over", judge_finds_each_part),
    ("a settled part stays whatever follows", settled_stays),
    ("the stored seed reaches every number", every_number_is_reached),
    ("a list written is a list read, and chunks joined are split", written_is_read),
    ("a state written is a state read", state_written_is_read),
    ("a whole state steps as the store does", whole_steps_as_the_store),
    ("what stands in unused places never changes an answer", unused_changes_nothing),
    ("the stored states reach every number five times", states_reach_every_number),
    ("the stored buffers have a list for each number of the reader", buffers_reach_the_reader),
];

/// Runs all; answers whether all passed.
pub fn selftest() -> bool {
    let mut passed = true;
    for (name, test) in TESTS {
        match test() {
            Ok(()) => println!("ok      {name}"),
            Err(reason) => {
                passed = false;
                println!("FAILED  {name}: {reason}");
            }
        }
    }
    passed
}

fn expect(fact: bool, reason: &str) -> Result<(), String> {
    if fact {
        Ok(())
    } else {
        Err(reason.to_string())
    }
}

fn bytes_of(case: &Case) -> Vec<u8> {
    list::write(&case.list())
}

fn cases_are_as_said() -> Result<(), String> {
    CASES.iter().try_for_each(Case::check)
}

fn b1_has_its_length() -> Result<(), String> {
    let bytes = bytes_of(&CASES[0]);
    expect(bytes.len() == 144 && bytes[..4] == [0, 0, 0, 140], "its length or length field differs")
}

fn b7_changes_nothing() -> Result<(), String> {
    let (before, after) = CASES[6].around_the_last();
    expect(before.memory == [0] && after.memory == [0], "memory is not 0")?;
    expect(before.out_queue(1) == [(0, 1)] && after.out_queue(1) == [(0, 1)], "out queue 1 is not (0, 1)")
}

fn fnv_is_fnv() -> Result<(), String> {
    expect(chunks::fnv(b"") == 0xcbf2_9ce4_8422_2325, "of nothing")?;
    expect(chunks::fnv(b"a") == 0xaf63_dc4c_8601_ec8c, "of a")?;
    expect(chunks::fnv(b"foobar") == 0x8594_4171_f739_67e8, "of foobar")
}

fn expect_refusal<T>(found: Result<T, String>, reason: &str) -> Result<(), String> {
    let said = found.err().unwrap_or("nothing".to_string());
    expect(said == reason, &format!("the judge says '{said}' and not '{reason}'"))
}

fn judge_tells_b1_apart() -> Result<(), String> {
    let bytes = bytes_of(&CASES[0]);
    judge::judge(&bytes, CASES[0].printed.as_bytes())?;
    bad_accounts::of_b1().iter().try_for_each(|(text, reason)| expect_refusal(judge::judge(&bytes, text), reason))
}

fn judge_takes_generated() -> Result<(), String> {
    for chunk in generate::chunks_of(7, 400) {
        judge::judge(&chunk, run::answer(&chunk).as_bytes())?;
    }
    Ok(())
}

fn judge_has_its_addresses() -> Result<(), String> {
    let write = Record { kind: W, engine: 1, origin: 0, address: 1, data: 5 };
    judge::is_serial(vec![0, 0], &[write])?;
    expect_refusal(judge::is_serial(vec![0], &[write]), "place 1: a plain memory has no address 1")
}

/// B3, B1, a list that is refused, and B4, as chunks; and what `replay` prints for each.
fn four_lists() -> (Vec<u8>, Vec<String>) {
    let lists = [bytes_of(&CASES[2]), bytes_of(&CASES[0]), Vec::new(), bytes_of(&CASES[3])];
    (chunks::join(&lists), lists.iter().map(|list| chunks::replay_one(list)).collect())
}

fn judge_takes_a_replay() -> Result<(), String> {
    let (input, parts) = four_lists();
    let few = judge::judge_replay(&input, parts.concat().as_bytes())?;
    expect((few.serial, few.refused) == (3, 1), "four lists are counted otherwise")?;
    let lists = generate::chunks_of(7, 400);
    let input = [chunks::join(&lists), generate::cut_short(7)].concat();
    let many = judge::judge_replay(&input, chunks::replay(&input).as_bytes())?;
    let read = lists.iter().filter(|list| list::read(list).is_ok()).count();
    expect((many.serial, many.refused) == (read, lists.len() - read), "generated lists are counted otherwise")
}

fn judge_finds_the_bad_account() -> Result<(), String> {
    let (input, parts) = four_lists();
    let after = parts.concat().split_off(parts[0].len() + CASES[0].printed.len());
    for (text, reason) in bad_accounts::of_b1() {
        let printed = [parts[0].as_bytes(), &text, after.as_bytes()].concat();
        expect_refusal(judge::judge_replay(&input, &printed), &format!("chunk 2: {reason}"))?;
    }
    Ok(())
}

fn judge_finds_each_part() -> Result<(), String> {
    let (input, parts) = four_lists();
    let (whole, [b3, b1, refused, b4]) = (parts.concat(), [0, 1, 2, 3].map(|at| parts[at].as_str()));
    let wrong = [
        ([b3, b1, refused].concat(), "chunk 4: nothing is printed for it, or no trace line ends it"),
        (whole.trim_end().to_string(), "chunk 4: nothing is printed for it, or no trace line ends it"),
        ([b3, refused, b4].concat(), "chunk 2: 'refused 1' is no line of counts"),
        (whole.clone() + b4, "chunk 5: there is none, and something is printed for it"),
        ([b3, b1, refused, refused, b4].concat(), "chunk 4: 'refused 1' is no line of counts"),
        ([b3, b1, b1, b4].concat(), "chunk 3: the list is refused with 1, and nothing else is to be printed"),
        (
            whole.replacen("trace 0", "trace ", 1),
            "chunk 1: line of place 3 is not one of an account: 'trace ec35c67f9d162eb'",
        ),
        (whole.clone() + "cut short\n", "chunk 5: 10 bytes follow the last trace line, and they are not \"\""),
    ];
    for (printed, reason) in wrong {
        expect_refusal(judge::judge_replay(&input, printed.as_bytes()), reason)?;
    }
    let untold = judge::judge_replay(&[&input[..], &[0]].concat(), whole.as_bytes());
    expect_refusal(untold, "chunk 5: 0 bytes follow the last trace line, and they are not \"cut short\\n\"")
}

/// The settled part of a list cut at each place is the start of the whole list's account.
fn settled_stays() -> Result<(), String> {
    for chunk in generate::chunks_of(11, 200) {
        let Ok(whole) = run::run(&chunk) else { continue };
        let places = whole.trace.len().min(60);
        for place in 0..places {
            let mut part = whole.list.clone();
            part.actions.truncate(place);
            let part = run::run(&list::write(&part)).map_err(|number| format!("refused {number}"))?;
            let settled = &part.account[..part.settled];
            expect(whole.account.starts_with(settled), &format!("not after {place} actions"))?;
        }
    }
    Ok(())
}

fn every_number_is_reached() -> Result<(), String> {
    let input = chunks::join(&generate::chunks_of(2, 1_600));
    let reached = reached::reached(&input);
    let never: Vec<&u8> = reached.numbers.iter().filter(|(_, times)| **times == 0).map(|(number, _)| number).collect();
    expect(never.is_empty(), &format!("never reached: {never:?}"))
}

fn written_is_read() -> Result<(), String> {
    let made = generate::chunks_of(3, 300);
    let joined = chunks::join(&made);
    let (split, cut_short) = chunks::split(&joined);
    expect(!cut_short && split == made, "chunks differ")?;
    for chunk in &made {
        if let Ok(read) = list::read(chunk) {
            expect(list::write(&read) == *chunk, "a list differs")?;
        }
    }
    (0..20).try_for_each(|seed| {
        let told = chunks::replay(&generate::cut_short(seed)) == "cut short\n";
        expect(told, "a chunk cut short is not told")
    })
}

fn state_written_is_read() -> Result<(), String> {
    for (state, action) in states::items_of(5, 200) {
        let item = item_to_bytes(&state, &action);
        expect(item.len() == ITEM && ITEM == 5_659, "an item's length differs")?;
        expect(item_from_bytes(&item) == (state, action), "an item differs")?;
    }
    expect(states::answer(&states::cut_short(5)) == "cut short\n", "an item cut short is not told")
}

/// Two readings of the tables, one over queues that grow and one over places, answer the same.
fn whole_steps_as_the_store() -> Result<(), String> {
    let mut random = Random::new(13);
    for chunk in generate::chunks_of(13, 300) {
        let Ok(list) = list::read(&chunk) else { continue };
        let mut store = Store::fresh(list.sizes, &list.memory);
        let mut state = drawn_state::fresh_state(&mut random, list.sizes, &list.memory);
        for action in list.actions {
            let (number, next, event) = state.step(&action);
            let found = if number == 0 { Ok(event) } else { Err(number) };
            expect(found == store.step(action), &format!("{action:?} answers {found:?}"))?;
            expect(number == 0 || (next == state && event == Record::default()), "a refused step changed something")?;
            state = next;
        }
    }
    Ok(())
}

/// Littered alike, two states with equal used places are equal.
fn unused_changes_nothing() -> Result<(), String> {
    let mut random = Random::new(17);
    for (state, action) in states::items_of(17, 400) {
        let (number, mut next, event) = state.step(&action);
        if number == 17 {
            continue;
        }
        let mut other = state;
        drawn_state::litter(&mut random, &mut other);
        let (other_number, mut other_next, other_event) = other.step(&action);
        let seed = random.next();
        drawn_state::litter(&mut Random::new(seed), &mut next);
        drawn_state::litter(&mut Random::new(seed), &mut other_next);
        expect((number, event, next) == (other_number, other_event, other_next), &format!("{action:?}"))?;
    }
    Ok(())
}

fn states_reach_every_number() -> Result<(), String> {
    let reached = states::reached(&states::join(&states::items_of(1, 250)));
    let few: Vec<&u8> = reached.iter().filter(|(_, times)| **times < 5).map(|(number, _)| number).collect();
    expect(reached.len() == 14 && few.is_empty(), &format!("seldom or never reached: {few:?}"))
}

fn buffers_reach_the_reader() -> Result<(), String> {
    let made = buffers::chunks_of(1, 60);
    let missing: Vec<u8> =
        (1..=9).filter(|number| made.iter().all(|chunk| list::read(chunk).err() != Some(*number))).collect();
    expect(missing.is_empty(), &format!("never refused with {missing:?}"))
}
