//! The independent program: all that the proved programs print, written from document 01 alone.

mod account;
mod bad_accounts;
mod buffers;
mod cases;
mod chunks;
mod damage;
mod drawn_state;
mod generate;
mod judge;
mod list;
mod random;
mod reached;
mod run;
mod selftest;
mod sound;
mod state_bytes;
mod states;
mod store;
mod stretched;
mod whole;
mod xml;

use judge::{Tally, Verdict};
use std::io::{Read, Write};
use std::process::ExitCode;

const USAGE: &str = "usage: oracle COMMAND
  answer                     a list on standard input: what 'account' prints
  show                       a list on standard input: what 'show' prints
  replay                     chunks on standard input: what 'replay' prints
  judge LIST                 an account on standard input: is it one for this list file?
  judge-replay CHUNKS-FILE   what 'replay' printed for this file on standard input: is each account one for its list?
  generate SEED COUNT [cut]  chunks of a seed; with 'cut', one more that is cut short
  load SEED LISTS ACTIONS    chunks of sound lists with this many actions each
  reached                    chunks on standard input: how often each refusal is reached
  chunk N                    chunks on standard input: the bytes of the Nth, from 1
  states SEED COUNT [cut]    items of a seed, a state and an action each; with 'cut', one more that is cut short
  states-answer              items on standard input: what 'states' prints
  states-reached             items on standard input: how often each number is reached
  buffers SEED COUNT [cut]   chunks of a seed for 'buffers'; with 'cut', one more that is cut short
  buffers-answer             chunks on standard input: what 'buffers' prints
  cases FOLDER               check B1 to B9 and write their lists and texts
  xml                        standard input: is it well-formed XML?
  selftest                   the oracle's own tests";

type Outcome = Result<(), String>;

fn input() -> Result<Vec<u8>, String> {
    let mut bytes = Vec::new();
    std::io::stdin().read_to_end(&mut bytes).map_err(|error| format!("standard input: {error}"))?;
    Ok(bytes)
}

fn output(bytes: &[u8]) -> Outcome {
    std::io::stdout().write_all(bytes).map_err(|error| format!("standard output: {error}"))
}

fn number(word: &str) -> Result<usize, String> {
    word.parse().map_err(|_| format!("'{word}' is no number"))
}

fn file(path: &str) -> Result<Vec<u8>, String> {
    std::fs::read(path).map_err(|error| format!("{path}: {error}"))
}

fn judge(path: &str) -> Outcome {
    output(match judge::judge(&file(path)?, &input()?)? {
        Verdict::Serial => b"a serial account of this list\n",
        Verdict::Refused => b"the refusal of this list\n",
    })
}

fn judge_replay(path: &str) -> Outcome {
    let Tally { serial, refused } = judge::judge_replay(&file(path)?, &input()?)?;
    output(format!("{serial} accounts judged, {refused} refusals\n").as_bytes())
}

fn generate(seed: &str, count: &str, cut: bool) -> Outcome {
    let seed = number(seed)? as u64;
    output(&chunks::join(&generate::chunks_of(seed, number(count)?)))?;
    output(&if cut { generate::cut_short(seed) } else { Vec::new() })
}

fn states(seed: &str, count: &str, cut: bool) -> Outcome {
    let seed = number(seed)? as u64;
    output(&states::join(&states::items_of(seed, number(count)?)))?;
    output(&if cut { states::cut_short(seed) } else { Vec::new() })
}

fn buffers(seed: &str, count: &str, cut: bool) -> Outcome {
    let seed = number(seed)? as u64;
    output(&chunks::join(&buffers::chunks_of(seed, number(count)?)))?;
    output(&if cut { generate::cut_short(seed) } else { Vec::new() })
}

fn load(seed: &str, lists: &str, actions: &str) -> Outcome {
    output(&generate::load(number(seed)? as u64, number(lists)?, number(actions)?))
}

fn chunk(place: &str) -> Outcome {
    let bytes = input()?;
    let (chunks, _) = chunks::split(&bytes);
    let found = number(place)?.checked_sub(1).and_then(|before| chunks.get(before));
    output(found.ok_or("there is no such chunk")?)
}

fn cases(folder: &str) -> Outcome {
    for case in &cases::CASES {
        case.check()?;
        let write = |ending: &str, bytes: &[u8]| {
            let path = format!("{folder}/{}.{ending}", case.name);
            std::fs::write(&path, bytes).map_err(|error| format!("{path}: {error}"))
        };
        write("list", &list::write(&case.list()))?;
        write("txt", case.text().as_bytes())?;
    }
    Ok(())
}

fn xml() -> Outcome {
    xml::well_formed(&String::from_utf8(input()?).map_err(|_| "it is no UTF-8")?)
}

fn selftest() -> Outcome {
    if selftest::selftest() {
        Ok(())
    } else {
        Err("a test failed".to_string())
    }
}

fn command(words: &[&str]) -> Outcome {
    match words {
        ["answer"] => output(run::answer(&input()?).as_bytes()),
        ["show"] => output(run::show(&input()?).as_bytes()),
        ["replay"] => output(chunks::replay(&input()?).as_bytes()),
        ["judge", list] => judge(list),
        ["judge-replay", chunks] => judge_replay(chunks),
        ["generate", seed, count] => generate(seed, count, false),
        ["generate", seed, count, "cut"] => generate(seed, count, true),
        ["load", seed, lists, actions] => load(seed, lists, actions),
        ["reached"] => output(reached::reached(&input()?).text().as_bytes()),
        ["chunk", place] => chunk(place),
        ["states", seed, count] => states(seed, count, false),
        ["states", seed, count, "cut"] => states(seed, count, true),
        ["states-answer"] => output(states::answer(&input()?).as_bytes()),
        ["states-reached"] => output(states::reached_text(&input()?).as_bytes()),
        ["buffers", seed, count] => buffers(seed, count, false),
        ["buffers", seed, count, "cut"] => buffers(seed, count, true),
        ["buffers-answer"] => output(buffers::answer(&input()?).as_bytes()),
        ["cases", folder] => cases(folder),
        ["xml"] => xml(),
        ["selftest"] => selftest(),
        _ => Err(USAGE.to_string()),
    }
}

fn main() -> ExitCode {
    let words: Vec<String> = std::env::args().skip(1).collect();
    let words: Vec<&str> = words.iter().map(String::as_str).collect();
    match command(&words) {
        Ok(()) => ExitCode::SUCCESS,
        Err(reason) => {
            eprintln!("oracle: {reason}");
            ExitCode::FAILURE
        }
    }
}
