//! A run over a list's bytes, and what the programs `account` and `show` print for it.

use crate::account::{self, Placed};
use crate::list::{self, List, HANDED};
use crate::store::{Record, Store, CI, CU, MR, MW, R, W};
use std::fmt::Write;

pub struct Run {
    pub list: List,
    /// One record for each action, a refused one's included.
    pub trace: Vec<Record>,
    pub account: Vec<Placed>,
    pub settled: usize,
}

impl Run {
    /// The events of accepted actions. A refused one's record has kind 0, which no event has.
    pub fn events(&self) -> Vec<Record> {
        self.trace.iter().copied().filter(|record| record.kind != 0).collect()
    }

    pub fn trace_bytes(&self) -> Vec<u8> {
        self.trace.iter().flat_map(|record| record.to_bytes()).collect()
    }
}

/// What stands before the account in a run: the list, and one record for each action.
pub fn trace(given: &[u8]) -> Result<(List, Vec<Record>), u8> {
    let list = list::read(&given[..given.len().min(HANDED)])?;
    let mut store = Store::fresh(list.sizes, &list.memory);
    let trace = list.actions.iter().map(|action| store.step(*action).unwrap_or_else(Record::of_refusal)).collect();
    Ok((list, trace))
}

/// Runs what a program is given: its first bytes, up to one more than a list can have.
pub fn run(given: &[u8]) -> Result<Run, u8> {
    let (list, trace) = trace(given)?;
    let mut run = Run { list, trace, account: Vec::new(), settled: 0 };
    let events = run.events();
    run.account = account::account(&events);
    run.settled = account::settled(&run.account, &events, run.list.sizes.engines);
    Ok(run)
}

/// What `account` prints.
pub fn answer(given: &[u8]) -> String {
    match run(given) {
        Err(number) => format!("refused {number}\n"),
        Ok(run) => account_text(&run),
    }
}

fn account_text(run: &Run) -> String {
    let accepted = run.events().len();
    let refused = run.trace.len() - accepted;
    let (events, settled) = (run.account.len(), run.settled);
    let mut text = format!("accepted {accepted} refused {refused} events {events} settled {settled}\n");
    for (before, placed) in run.account.iter().enumerate() {
        let number = placed.number.map_or("-".to_string(), |number| number.to_string());
        let letter = if placed.event.kind == R { 'R' } else { 'W' };
        let Record { engine, address, data, .. } = placed.event;
        writeln!(text, "{} {number} {letter} {engine} {address} {data}", before + 1).expect("memory");
    }
    text
}

/// What `show` prints: the sizes, each action with its answer, then the account.
pub fn show(given: &[u8]) -> String {
    let run = match run(given) {
        Err(number) => return format!("refused {number}\n"),
        Ok(run) => run,
    };
    let mut text = head_text(&run.list) + "\n";
    for (before, (action, record)) in run.list.actions.iter().zip(&run.trace).enumerate() {
        writeln!(text, "{} {} -> {}", before + 1, action_text(action), result_text(record)).expect("memory");
    }
    text + &account_text(&run)
}

pub fn head_text(list: &List) -> String {
    let sizes = list.sizes;
    let memory: String = list.memory.iter().map(|value| format!(" {value}")).collect();
    format!("engines {} addresses {} depth {} memory{memory}", sizes.engines, sizes.addresses, sizes.depth)
}

/// An action in the words of the document; eight bytes where those words cannot say it.
pub fn action_text(action: &Record) -> String {
    let Record { engine, address, data, .. } = *action;
    match action.kind {
        R if action.blanks_are_blank() => format!("R {engine} {address}"),
        W if action.blanks_are_blank() => format!("W {engine} {address} {data}"),
        MW if action.blanks_are_blank() => format!("MW {engine}"),
        MR if action.blanks_are_blank() => format!("MR {engine} {address}"),
        CU if action.blanks_are_blank() => format!("CU {engine}"),
        CI if action.blanks_are_blank() => format!("CI {engine} {address}"),
        _ => {
            let bytes = action.to_bytes();
            "bytes".to_string() + &bytes.iter().map(|byte| format!(" {byte:02x}")).collect::<String>()
        }
    }
}

fn result_text(record: &Record) -> String {
    let Record { engine, origin, address, data, .. } = *record;
    match record.kind {
        0 => format!("refused {engine}"),
        R | MR => format!("{data}"),
        MW => format!("{address} {data}"),
        CU => format!("{origin} {address} {data}"),
        _ => "ok".to_string(),
    }
}
