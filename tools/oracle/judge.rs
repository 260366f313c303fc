//! A third opinion: an account as printed is judged by what an account is for, not by how it is built.
//! It must have every accepted read and write of the run exactly once, each engine's in that engine's
//! own order, and every read must give what one plain memory holds at its place.

use crate::chunks;
use crate::run;
use crate::store::{Record, R, W};
use std::str::FromStr;

/// What a printed text is, where it is right.
pub enum Verdict {
    Serial,
    Refused,
}

/// How many texts had each verdict.
#[derive(Default)]
pub struct Tally {
    pub serial: usize,
    pub refused: usize,
}

impl Tally {
    fn add(&mut self, verdict: Verdict) {
        match verdict {
            Verdict::Serial => self.serial += 1,
            Verdict::Refused => self.refused += 1,
        }
    }
}

/// What a printed account says, or what is wrong with it as a text.
fn parse(printed: &str) -> Result<Vec<Record>, String> {
    let mut lines = printed.split_terminator('\n');
    let counts = lines.next().ok_or("nothing was printed")?;
    let counted = counted_events(counts).ok_or_else(|| format!("'{counts}' is no line of counts"))?;
    let event = |place, line| {
        parse_line(place, line).ok_or_else(|| format!("line of place {place} is not one of an account: '{line}'"))
    };
    let events: Vec<Record> = (1..).zip(lines).map(|(place, line)| event(place, line)).collect::<Result<_, _>>()?;
    if counted != events.len() {
        return Err(format!("'{counts}' before {} events", events.len()));
    }
    Ok(events)
}

/// A number as the programs print it, with neither a sign nor a needless 0.
fn number<N: FromStr + ToString>(word: &str) -> Option<N> {
    word.parse().ok().filter(|number: &N| number.to_string() == word)
}

/// How many events a line of counts announces. The other counts are not what an account is for.
fn counted_events(line: &str) -> Option<usize> {
    let words: Vec<&str> = line.split(' ').collect();
    let ["accepted", accepted, "refused", refused, "events", events, "settled", settled] = words[..] else {
        return None;
    };
    let are_counts = [accepted, refused, settled].iter().all(|count| number::<usize>(count).is_some());
    are_counts.then_some(number(events)?)
}

/// The event of a line. Its slot or write number says how the account was built, and is not judged.
fn parse_line(place: usize, line: &str) -> Option<Record> {
    let words: Vec<&str> = line.split(' ').collect();
    let [written_place, built_with, letter, engine, address, data] = words[..] else { return None };
    let kind = match letter {
        "R" => R,
        "W" => W,
        _ => return None,
    };
    let is_one = number(written_place) == Some(place) && (built_with == "-" || number::<u32>(built_with).is_some());
    let event = Record { kind, engine: number(engine)?, origin: 0, address: number(address)?, data: number(data)? };
    is_one.then_some(event)
}

/// The reads and writes of each engine, in its own order.
fn by_engine(events: &[Record]) -> Vec<Vec<Record>> {
    let mut engines = vec![Vec::new(); 1 + u8::MAX as usize];
    for event in events.iter().filter(|event| [R, W].contains(&event.kind)) {
        engines[event.engine as usize].push(*event);
    }
    engines
}

/// Equal sequences for every engine mean both: each event exactly once, and in its engine's order.
fn keeps_each_engine(trace: &[Record], account: &[Record]) -> Result<(), String> {
    for (engine, (here, there)) in by_engine(account).iter().zip(&by_engine(trace)).enumerate() {
        if here != there {
            return Err(format!(
                "engine {engine}: its {} events in the account are not its {} in the run, in its order",
                here.len(),
                there.len()
            ));
        }
    }
    Ok(())
}

/// Whether every read gives what this memory holds at its place, each write before it done.
pub fn is_serial(mut memory: Vec<u32>, account: &[Record]) -> Result<(), String> {
    for (before, event) in account.iter().enumerate() {
        let Some(cell) = memory.get_mut(event.address as usize) else {
            return Err(format!("place {}: a plain memory has no address {}", before + 1, event.address));
        };
        if event.kind == W {
            *cell = event.data;
        } else if *cell != event.data {
            return Err(format!(
                "place {}: engine {} reads {} at address {} where a plain memory has {}",
                before + 1,
                event.engine,
                event.data,
                event.address,
                *cell
            ));
        }
    }
    Ok(())
}

/// Judges what `account` printed for one list.
pub fn judge(list: &[u8], printed: &[u8]) -> Result<Verdict, String> {
    let (list, trace) = match run::trace(list) {
        Ok(ran) => ran,
        Err(number) if printed == format!("refused {number}\n").as_bytes() => return Ok(Verdict::Refused),
        Err(number) => return Err(format!("the list is refused with {number}, and nothing else is to be printed")),
    };
    let account = parse(std::str::from_utf8(printed).map_err(|_| "the account is no text")?)?;
    keeps_each_engine(&trace, &account)?;
    is_serial(list.memory, &account)?;
    Ok(Verdict::Serial)
}

/// Judges what `replay` printed for these chunks. What is wrong begins with the number of the first bad one.
pub fn judge_replay(input: &[u8], printed: &[u8]) -> Result<Tally, String> {
    let (lists, cut_short) = chunks::split(input);
    let (accounts, end) = chunks::split_printed(printed);
    let parts = lists.len().max(accounts.len());
    let mut tally = Tally::default();
    for before in 0..parts {
        let verdict = judge_part(lists.get(before), accounts.get(before));
        tally.add(verdict.map_err(|reason| format!("chunk {}: {reason}", before + 1))?);
    }
    let due = chunks::end_text(cut_short);
    if end != due.as_bytes() {
        let found = end.len();
        return Err(format!("chunk {}: {found} bytes follow the last trace line, and they are not {due:?}", parts + 1));
    }
    Ok(tally)
}

fn judge_part(list: Option<&&[u8]>, account: Option<&&[u8]>) -> Result<Verdict, String> {
    let list = list.ok_or("there is none, and something is printed for it")?;
    judge(list, account.ok_or("nothing is printed for it, or no trace line ends it")?)
}
