//! The account and its settled part, found from the events alone and by the document's definition.

use crate::store::{Record, CU, MW, R, W};

/// One event of the account and its slot or write number; none if it is an unpublished write.
#[derive(Clone, Copy, PartialEq, Eq, Debug)]
pub struct Placed {
    pub event: Record,
    pub number: Option<usize>,
}

/// How many writes an engine has taken: the updates whose origin is an engine.
pub fn taken(events: &[Record], engine: u8) -> usize {
    events.iter().filter(|event| event.kind == CU && event.engine == engine && event.origin != 0).count()
}

/// The reads with their slots, in the order in which they happened.
fn reads(events: &[Record]) -> Vec<Placed> {
    let happened = events.iter().enumerate().filter(|(_, event)| event.kind == R);
    happened.map(|(at, event)| Placed { event: *event, number: Some(taken(&events[..at], event.engine)) }).collect()
}

/// The writes in the order of their issue; those published have their number.
fn writes(events: &[Record]) -> Vec<Placed> {
    let mut writes = Vec::new();
    let mut published = 0;
    for event in events {
        if event.kind == W {
            writes.push(Placed { event: *event, number: None });
        } else if event.kind == MW {
            published += 1;
            let oldest = writes.iter_mut().find(|write| write.event.engine == event.engine && write.number.is_none());
            oldest.expect("a publication has its write").number = Some(published);
        }
    }
    writes
}

/// The account of the accepted events of a run.
pub fn account(events: &[Record]) -> Vec<Placed> {
    let (reads, writes) = (reads(events), writes(events));
    let published = writes.iter().filter(|write| write.number.is_some()).count();
    let mut account = Vec::new();
    for slot in 0..=published {
        account.extend(writes.iter().filter(|write| write.number == Some(slot)));
        account.extend(reads.iter().filter(|read| read.number == Some(slot)));
    }
    for engine in 0..=u8::MAX {
        account.extend(writes.iter().filter(|write| write.number.is_none() && write.event.engine == engine));
    }
    account
}

/// How many events at the start of the account no later action can change.
pub fn settled(account: &[Placed], events: &[Record], engines: u8) -> usize {
    let floor = (1..=engines).map(|engine| taken(events, engine)).min().unwrap_or(0);
    account.iter().filter(|placed| placed.number.is_some_and(|number| number <= floor)).count()
}
