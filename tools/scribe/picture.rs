//! The picture of a run: what happened in time, then the account, both from what `show` printed.

use crate::panel::{Band, Column, Mark, Panel, Shade, MARGIN};
use crate::shown::{Action, Answer, Event, Shown};
use crate::svg::Svg;
use crate::words;
use crate::Failure;
use std::cmp::Ordering;
use std::collections::BTreeMap;

const NARROWEST: usize = 860;
/// The lane of actions that name no engine of the list, or that stand as bytes: all are refused.
const BAD_FORM: &str = "bad form";
const LEGEND: [(&str, &str); 8] = [
    ("W", "write"),
    ("MW", "publication"),
    ("CU", "update"),
    ("MR", "refresh"),
    ("R", "read"),
    ("CI", "drop"),
    ("refused", "refused, number below"),
    ("settled", "settled"),
];
const NOTES: [&str; 3] = [
    "Under a mark: address=value. Over it: #3 third in the account; w2 write 2; \
     e1 from engine 1, mem from memory; t7 action 7.",
    "The strip under a lane is the slot that the engine's reads fall in. \
     A dotted line: a publication joins every in queue.",
    "Point at a mark for its line.",
];

/// The place in the account of each accepted read and write, by the action's place; none for the rest.
/// An engine's events stand in the account in the engine's own order, so its first there is its first.
fn places_in_account(shown: &Shown) -> Result<Vec<Option<usize>>, String> {
    let mut passed = vec![0; shown.engines + 1];
    let mut places = Vec::new();
    for action in &shown.actions {
        let counted = ["R", "W"].contains(&action.letters.as_str()) && matches!(action.answer, Answer::Accepted(_));
        let Some(engine) = action.engine(shown.engines).filter(|_| counted) else {
            places.push(None);
            continue;
        };
        let own = shown.account.iter().enumerate().filter(|(_, event)| event.engine == engine);
        let found = own.map(|(place, _)| place).nth(passed[engine]);
        passed[engine] += 1;
        let place = found.ok_or(format!("'{}': the account lacks this event", action.line))?;
        if shown.account[place].letters != action.letters {
            return Err(format!("'{}': the account has '{}' in its place", action.line, shown.account[place].line));
        }
        places.push(Some(place));
    }
    Ok(places)
}

fn lanes(shown: &Shown) -> Vec<String> {
    let mut lanes: Vec<String> = (1..=shown.engines).map(|engine| format!("engine {engine}")).collect();
    if shown.actions.iter().any(|action| action.engine(shown.engines).is_none()) {
        lanes.push(BAD_FORM.to_string());
    }
    lanes
}

/// What stands over and under a mark.
fn labels(action: &Action, engines: usize, account_place: Option<usize>, published: usize) -> (String, String) {
    let own_fields = action.fields.get(1..).unwrap_or(&[]).join("=");
    let numbers = match &action.answer {
        Answer::Refused(number) => return (refused_words(action, engines, own_fields), number.to_string()),
        Answer::Accepted(numbers) => numbers.as_slice(),
    };
    let in_account = account_place.map_or(String::new(), |place| format!("#{}", place + 1));
    match (action.letters.as_str(), numbers) {
        ("R" | "MR", [value]) => (in_account, format!("{own_fields}={value}")),
        ("MW", [address, value]) => (format!("w{published}"), format!("{address}={value}")),
        ("CU", [0, address, value]) => ("mem".to_string(), format!("{address}={value}")),
        ("CU", [origin, address, value]) => (format!("e{origin}"), format!("{address}={value}")),
        _ => (in_account, own_fields),
    }
}

/// A refused action has its own fields over it, and the engine too if it stands in no engine's lane.
fn refused_words(action: &Action, engines: usize, own_fields: String) -> String {
    if action.letters == "bytes" {
        String::new()
    } else if action.engine(engines).is_none() {
        format!("e{}", action.fields.join(" "))
    } else {
        own_fields
    }
}

/// Counts, along the actions, what bands and publications are numbered by.
struct Counted {
    published: usize,
    slots: Vec<usize>,
}

impl Counted {
    fn add(&mut self, action: &Action, engines: usize) {
        let Answer::Accepted(numbers) = &action.answer else { return };
        let Some(engine) = action.engine(engines) else { return };
        match (action.letters.as_str(), numbers.as_slice()) {
            ("MW", _) => self.published += 1,
            ("CU", [origin, ..]) if *origin != 0 => self.slots[engine - 1] += 1,
            _ => {}
        }
    }
}

fn time_panel(shown: &Shown, places: &[Option<usize>]) -> Result<Panel, String> {
    let lanes = lanes(shown);
    let mut counted = Counted { published: 0, slots: vec![0; shown.engines] };
    let mut columns = Vec::new();
    for (before, action) in shown.actions.iter().enumerate() {
        counted.add(action, shown.engines);
        let engine = action.engine(shown.engines);
        if let (Some(engine), Some(event)) = (engine, places[before].map(|place| &shown.account[place])) {
            agree_on_slot(action, event, counted.slots[engine - 1])?;
        }
        columns.push(time_column(action, before, places[before], &counted, shown, lanes.len()));
    }
    Ok(Panel { name: format!("What happened: {} actions in time", shown.actions.len()), lanes, columns })
}

/// A band drawn at another slot than the account's would be a lie, so none is.
fn agree_on_slot(action: &Action, event: &Event, slot: usize) -> Result<(), String> {
    if action.letters == "R" && event.number != Some(slot) {
        return Err(format!(
            "'{}': the account has it in another slot than {slot}, its engine's updates so far",
            action.line
        ));
    }
    Ok(())
}

fn time_column(
    action: &Action,
    before: usize,
    place: Option<usize>,
    counted: &Counted,
    shown: &Shown,
    lanes: usize,
) -> Column {
    let (above, below) = labels(action, shown.engines, place, counted.published);
    let refused = matches!(action.answer, Answer::Refused(_));
    let mut bands: Vec<Band> = counted.slots.iter().map(|slot| Band::Slot(*slot)).collect();
    bands.resize(lanes, Band::Nothing);
    let is_settled = place.is_some_and(|place| place < shown.settled);
    let letters = if action.letters == "bytes" { "?".to_string() } else { action.letters.clone() };
    let lane = action.engine(shown.engines).unwrap_or(lanes) - 1;
    Column {
        head: (before + 1).to_string(),
        across: action.letters == "MW" && !refused,
        mark: Mark { lane, letters, above, below, refused, line: action.line.clone() },
        bands,
        shade: if is_settled { Shade::Mark } else { Shade::Nothing },
    }
}

fn account_panel(shown: &Shown, places: &[Option<usize>]) -> Panel {
    let lanes: Vec<String> = (1..=shown.engines).map(|engine| format!("engine {engine}")).collect();
    let column = |(before, event): (usize, &Event)| {
        let happened =
            places.iter().position(|place| *place == Some(before)).map_or(String::new(), |at| format!("t{}", at + 1));
        let mark = Mark {
            lane: event.engine - 1,
            letters: event.letters.clone(),
            above: happened,
            below: format!("{}={}", event.address, event.data),
            refused: false,
            line: event.line.clone(),
        };
        let band = event.number.map_or(Band::Unpublished, Band::Slot);
        let shade = match (before + 1).cmp(&shown.settled) {
            Ordering::Less => Shade::Column,
            Ordering::Equal => Shade::LastColumn,
            Ordering::Greater => Shade::Nothing,
        };
        Column { head: format!("#{}", before + 1), mark, bands: vec![band; shown.engines], shade, across: false }
    };
    let columns = shown.account.iter().enumerate().map(column).collect();
    let unpublished = shown.account.iter().any(|event| event.number.is_none());
    let note = if unpublished { "; '-': not yet published" } else { "" };
    let name = format!("The account: {} events in serial order, {} settled{note}", shown.account.len(), shown.settled);
    Panel { name, lanes, columns }
}

fn draw_heading(svg: &mut Svg, shown: &Shown, width: usize) -> usize {
    svg.text((MARGIN, 30), "title", &shown.counts);
    // sixty-four values of memory are more than a line
    let room = (width - 2 * MARGIN) / 7;
    let cut = if shown.head.chars().count() > room {
        shown.head.chars().take(room - 3).chain(" ..".chars()).collect()
    } else {
        shown.head.clone()
    };
    svg.titled(&shown.head, |svg| svg.text((MARGIN, 48), "", &cut));
    let mut x = MARGIN;
    for (class, words) in LEGEND {
        svg.rect((x, 60), (24, 16), 4, class);
        svg.text(
            (x + 12, 72),
            if class == "refused" { "no" } else { "chip" },
            if class.len() > 2 { "" } else { class },
        );
        svg.text((x + 29, 72), "", words);
        x += 29 + words.len() * 7 + 8;
    }
    for (place, note) in NOTES.iter().enumerate() {
        svg.text((MARGIN, 94 + 14 * place), "faint", note);
    }
    94 + 14 * NOTES.len() + 8
}

/// The refusals that the picture has, each with its words.
fn draw_refusals(svg: &mut Svg, shown: &Shown, top: usize) -> usize {
    let mut times: BTreeMap<u8, usize> = BTreeMap::new();
    for action in &shown.actions {
        if let Answer::Refused(number) = action.answer {
            *times.entry(number).or_insert(0) += 1;
        }
    }
    let mut y = top;
    for (number, times) in times {
        y += 14;
        let words = words::words_of(number).unwrap_or("");
        svg.text((MARGIN, y), "", &format!("{number} {words}, {times} times").replace(", 1 times", ", once"));
    }
    y + MARGIN
}

pub fn picture(shown: &Shown) -> Result<String, Failure> {
    let places = places_in_account(shown)?;
    let panels = [time_panel(shown, &places)?, account_panel(shown, &places)];
    let widest = panels.iter().map(Panel::width).max().unwrap_or(0);
    let width = (widest + 2 * MARGIN).max(NARROWEST);
    let mut svg = Svg::new();
    let mut y = draw_heading(&mut svg, shown, width);
    for panel in &panels {
        y = panel.draw(&mut svg, y);
    }
    let height = draw_refusals(&mut svg, shown, y);
    Ok(svg.finish(width, height))
}
