//! What a set of chunks reaches: a refusal that no list reaches is one that nothing compares.

use crate::chunks;
use crate::run;
use crate::sound::STEP_REFUSALS;
use std::collections::BTreeMap;

pub struct Reached {
    pub lists: usize,
    pub refused_lists: usize,
    pub accepted: usize,
    pub refused: usize,
    pub events: usize,
    pub settled: usize,
    /// How often each number was the answer, of a run or of a step; one never reached has 0.
    pub numbers: BTreeMap<u8, usize>,
}

pub fn reached(input: &[u8]) -> Reached {
    let numbers = (1..=9).chain(STEP_REFUSALS).map(|number| (number, 0)).collect();
    let mut reached = Reached { lists: 0, refused_lists: 0, accepted: 0, refused: 0, events: 0, settled: 0, numbers };
    for chunk in chunks::split(input).0 {
        reached.add(chunk);
    }
    reached
}

impl Reached {
    fn add(&mut self, chunk: &[u8]) {
        self.lists += 1;
        let run = match run::run(chunk) {
            Ok(run) => run,
            Err(number) => {
                self.refused_lists += 1;
                *self.numbers.entry(number).or_insert(0) += 1;
                return;
            }
        };
        let accepted = run.events().len();
        self.accepted += accepted;
        self.refused += run.trace.len() - accepted;
        self.events += run.account.len();
        self.settled += run.settled;
        for record in run.trace.iter().filter(|record| record.kind == 0) {
            *self.numbers.entry(record.engine).or_insert(0) += 1;
        }
    }

    pub fn text(&self) -> String {
        let Reached { lists, refused_lists, accepted, refused, events, settled, .. } = self;
        let mut text = format!("lists {lists} read {} refused {refused_lists}\n", lists - refused_lists);
        text += &format!("actions {} accepted {accepted} refused {refused}\n", accepted + refused);
        text += &format!("events {events} settled {settled}\n");
        for (number, times) in &self.numbers {
            text += &format!("{number:>2} {times}\n");
        }
        text
    }
}
