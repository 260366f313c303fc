//! Reading what the proved program `show` prints.

use crate::words;
use crate::Failure;

const MOST_ENGINES: usize = 8;
const LETTERS: [&str; 7] = ["R", "W", "MW", "MR", "CU", "CI", "bytes"];

pub enum Answer {
    Refused(u8),
    /// The numbers that the event filled in; none for 'ok'.
    Accepted(Vec<u32>),
}

/// One action: the step's letters (or 'bytes'), its fields as printed, its answer, the whole line.
pub struct Action {
    pub letters: String,
    pub fields: Vec<String>,
    pub answer: Answer,
    pub line: String,
}

/// One line of the account; no number means unpublished.
pub struct Event {
    pub number: Option<usize>,
    pub letters: String,
    pub engine: usize,
    pub address: u32,
    pub data: u32,
    pub line: String,
}

pub struct Shown {
    pub head: String,
    pub engines: usize,
    pub actions: Vec<Action>,
    pub counts: String,
    pub settled: usize,
    pub account: Vec<Event>,
}

impl Action {
    /// The engine whose lane the action stands in; none if it names no engine of the list.
    pub fn engine(&self, engines: usize) -> Option<usize> {
        let named = if self.letters == "bytes" { None } else { self.fields.first() };
        named.and_then(|word| word.parse().ok()).filter(|engine| (1..=engines).contains(engine))
    }
}

pub fn read(text: &str) -> Result<Shown, Failure> {
    if text.bytes().any(|byte| byte != b'\n' && !(b' '..=b'~').contains(&byte)) {
        return Err(Failure::from("letters in it that 'show' does not print".to_string()));
    }
    let lines: Vec<&str> = text.lines().collect();
    if let Some(["refused", _]) = lines.first().map(|line| line.split(' ').collect::<Vec<_>>()).as_deref() {
        let reason = words::with_words(lines[0]);
        return Err(Failure {
            status: 1,
            reason: format!("there is nothing to draw: the list was {}", reason.trim_end()),
        });
    }
    let counts_at = lines
        .iter()
        .position(|line| line.starts_with("accepted "))
        .ok_or("no line of counts: not what 'show' prints".to_string())?;
    let bad = |place: usize| format!("line {}: '{}': not a line that 'show' prints there", place + 1, lines[place]);
    let read_action = |place: usize| action(lines[place]).ok_or_else(|| bad(place));
    let engines = number_after(lines[0], "engines").filter(|engines| (1..=MOST_ENGINES).contains(engines));
    let engines = engines.ok_or_else(|| bad(0))?;
    let of_an_engine = |event: &Event| (1..=engines).contains(&event.engine);
    let read_event = |place: usize| event(lines[place]).filter(of_an_engine).ok_or_else(|| bad(place));
    Ok(Shown {
        head: lines[0].to_string(),
        engines,
        actions: (1..counts_at).map(read_action).collect::<Result<_, _>>()?,
        counts: lines[counts_at].to_string(),
        settled: number_after(lines[counts_at], "settled").ok_or_else(|| bad(counts_at))?,
        account: (counts_at + 1..lines.len()).map(read_event).collect::<Result<_, _>>()?,
    })
}

fn number_after(line: &str, wanted: &str) -> Option<usize> {
    let mut words = line.split(' ');
    words.find(|word| *word == wanted)?;
    words.next()?.parse().ok()
}

fn action(line: &str) -> Option<Action> {
    let (said, answered) = line.split_once(" -> ")?;
    let mut said = said.split(' ').map(str::to_string);
    said.next()?.parse::<usize>().ok()?;
    let letters = said.next().filter(|letters| LETTERS.contains(&letters.as_str()))?;
    Some(Action { letters, fields: said.collect(), answer: answer(answered)?, line: line.to_string() })
}

fn answer(text: &str) -> Option<Answer> {
    if let Some(number) = text.strip_prefix("refused ") {
        return Some(Answer::Refused(number.parse().ok()?));
    }
    if text == "ok" {
        return Some(Answer::Accepted(Vec::new()));
    }
    text.split(' ').map(|word| word.parse().ok()).collect::<Option<Vec<u32>>>().map(Answer::Accepted)
}

fn event(line: &str) -> Option<Event> {
    let fields: Vec<&str> = line.split(' ').collect();
    let [_, number, letters @ ("R" | "W"), engine, address, data] = fields[..] else { return None };
    let number = if number == "-" { None } else { Some(number.parse().ok()?) };
    let (engine, address, data) = (engine.parse().ok()?, address.parse().ok()?, data.parse().ok()?);
    Some(Event { number, letters: letters.to_string(), engine, address, data, line: line.to_string() })
}
