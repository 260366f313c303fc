//! B1 to B9 in the document's words. After an action stands what the document says of it: 'is 27', a
//! refusal; 'gives 3'; 'origin 0'; 'slot 1'. An action with no 'is' is accepted.
//! What is printed for B1 is the document's own text. For the others it was worked out by hand from
//! what the document says of them.

use crate::list::{self, List};
use crate::run::{self, Run};
use crate::store::{Record, Sizes, Store, CI, CU, MR, MW, R, W};

pub struct Case {
    pub name: &'static str,
    /// Engines, addresses, depth.
    pub sizes: [u8; 3],
    pub memory: &'static [u32],
    pub actions: &'static str,
    pub printed: &'static str,
}

pub const CASES: [Case; 9] = [
    Case {
        name: "B1",
        sizes: [2, 2, 2],
        memory: &[0, 0],
        actions: "MR 2 0; MR 2 1; CU 2; CU 2; W 1 1 1; W 1 0 7; R 2 0; MW 1; MW 1; MR 2 0 is 27; CU 2; \
                  R 2 1; R 2 0; CU 2; R 2 0; R 1 0 is 22",
        printed: "accepted 14 refused 2 events 6 settled 1\n1 0 R 2 0 0\n2 1 W 1 1 1\n3 1 R 2 1 1\n\
                  4 1 R 2 0 0\n5 2 W 1 0 7\n6 2 R 2 0 7\n",
    },
    Case {
        name: "B2",
        sizes: [2, 2, 1],
        memory: &[0, 0],
        actions: "W 1 0 1; R 1 1 is 21; MW 1; R 1 0 is 22; CU 1; R 1 0 gives 1; R 1 1 is 23",
        printed: "accepted 4 refused 3 events 2 settled 0\n1 1 W 1 0 1\n2 1 R 1 0 1\n",
    },
    Case {
        name: "B3",
        sizes: [2, 1, 1],
        memory: &[0],
        actions: "W 2 0 9; W 1 0 8; W 2 0 5 is 24",
        printed: "accepted 2 refused 1 events 2 settled 0\n1 - W 1 0 8\n2 - W 2 0 9\n",
    },
    Case {
        name: "B4",
        sizes: [2, 1, 2],
        memory: &[3],
        actions: "MR 1 0; W 2 0 4; MW 2; CU 1 origin 0; R 1 0 gives 3 slot 0; CU 1 origin 2; R 1 0 gives 4 slot 1",
        printed: "accepted 7 refused 0 events 3 settled 1\n1 0 R 1 0 3\n2 1 W 2 0 4\n3 1 R 1 0 4\n",
    },
    Case {
        name: "B5",
        sizes: [1, 1, 1],
        memory: &[0],
        actions: "W 1 0 5; MW 1; CU 1; R 1 0 gives 5",
        printed: "accepted 4 refused 0 events 2 settled 2\n1 1 W 1 0 5\n2 1 R 1 0 5\n",
    },
    Case {
        name: "B6",
        sizes: [2, 1, 1],
        memory: &[0],
        actions: "",
        printed: "accepted 0 refused 0 events 0 settled 0\n",
    },
    Case {
        name: "B7",
        sizes: [2, 1, 1],
        memory: &[0],
        actions: "MR 2 0; W 1 0 1; MW 1 is 26",
        printed: "accepted 2 refused 1 events 1 settled 0\n1 - W 1 0 1\n",
    },
    Case {
        name: "B8",
        sizes: [2, 1, 1],
        memory: &[0],
        actions: "CI 1 0; MW 1 is 25; CU 1 is 28; R 1 0 is 23",
        printed: "accepted 1 refused 3 events 0 settled 0\n",
    },
    Case {
        name: "B9",
        sizes: [1, 1, 1],
        memory: &[0],
        actions: "bytes 07 09 00 00 00 00 00 00 is 11; R 9 0 is 12; bytes 01 01 00 01 00 00 00 05 is 13; \
                  bytes 01 01 00 00 00 00 00 05 is 14",
        printed: "accepted 0 refused 4 events 0 settled 0\n",
    },
];

const REMARKS: [&str; 4] = ["is", "gives", "origin", "slot"];

/// One action of a case: its words, and each remark with its number.
struct Said {
    words: Vec<&'static str>,
    remarks: Vec<(&'static str, u32)>,
}

fn said(action: &'static str) -> Said {
    let words: Vec<&str> = action.split_whitespace().collect();
    let end = words.iter().position(|word| REMARKS.contains(word)).unwrap_or(words.len());
    let remark = |pair: &[&'static str]| (pair[0], pair[1].parse().expect("a remark has a number"));
    Said { remarks: words[end..].chunks(2).map(remark).collect(), words: words[..end].to_vec() }
}

fn record(words: &[&str]) -> Record {
    if words[0] == "bytes" {
        let bytes: Vec<u8> = words[1..].iter().map(|byte| u8::from_str_radix(byte, 16).expect("a byte")).collect();
        return Record::from_bytes(&bytes);
    }
    let field = |at: usize| words.get(at).map_or(0, |word| word.parse().expect("a number"));
    let kind = match words[0] {
        "R" => R,
        "W" => W,
        "MW" => MW,
        "MR" => MR,
        "CU" => CU,
        "CI" => CI,
        other => panic!("no step is called {other}"),
    };
    Record { kind, engine: field(1) as u8, origin: 0, address: field(2) as u8, data: field(3) }
}

impl Case {
    fn actions(&self) -> Vec<Said> {
        self.actions.split(';').filter(|action| !action.trim().is_empty()).map(said).collect()
    }

    pub fn list(&self) -> List {
        let [engines, addresses, depth] = self.sizes;
        let actions = self.actions().iter().map(|said| record(&said.words)).collect();
        List { sizes: Sizes { engines, addresses, depth }, memory: self.memory.to_vec(), actions }
    }

    /// The readable text, with what the document says of each action as its comment.
    pub fn text(&self) -> String {
        let mut text =
            format!("# {} of document 01, \"Worked on the bench\"\n{}\n", self.name, run::head_text(&self.list()));
        for said in self.actions() {
            let remarks: String = said.remarks.iter().map(|(word, number)| format!(" {word} {number}")).collect();
            let comment = if remarks.is_empty() { String::new() } else { format!("  #{remarks}") };
            text += &format!("{}{comment}\n", said.words.join(" "));
        }
        text
    }

    /// Holds the run of this case to all that the document says of it.
    pub fn check(&self) -> Result<(), String> {
        let bytes = list::write(&self.list());
        let run = run::run(&bytes).map_err(|number| format!("{}: the list is refused with {number}", self.name))?;
        for (at, said) in self.actions().iter().enumerate() {
            check_action(&run, at, said).map_err(|reason| format!("{}, action {}: {reason}", self.name, at + 1))?;
        }
        if run::answer(&bytes) != self.printed {
            return Err(format!("{}: printed is\n{}and not\n{}", self.name, run::answer(&bytes), self.printed));
        }
        Ok(())
    }

    /// The store before and after the last action.
    pub fn around_the_last(&self) -> (Store, Store) {
        let list = self.list();
        let mut store = Store::fresh(list.sizes, &list.memory);
        let mut before = store.clone();
        for action in list.actions {
            before = store.clone();
            let _ = store.step(action);
        }
        (before, store)
    }
}

fn check_action(run: &Run, at: usize, said: &Said) -> Result<(), String> {
    let found = run.trace[at];
    let refusal = said.remarks.iter().find(|(word, _)| *word == "is").map_or(0, |(_, number)| *number as u8);
    let found_refusal = if found.kind == 0 { found.engine } else { 0 };
    if found_refusal != refusal {
        return Err(format!("refusal {found_refusal} and not {refusal}"));
    }
    for (word, number) in &said.remarks {
        let value = match *word {
            "gives" => found.data,
            "origin" => found.origin as u32,
            "slot" => slot_of_read(run, at),
            _ => continue,
        };
        if value != *number {
            return Err(format!("{word} {value} and not {number}"));
        }
    }
    Ok(())
}

/// The slot of the read at this place of the trace: an engine's reads stand in its order in the account.
fn slot_of_read(run: &Run, at: usize) -> u32 {
    let engine = run.trace[at].engine;
    let earlier = run.trace[..at].iter().filter(|record| record.kind == R && record.engine == engine).count();
    let own = run.account.iter().filter(|placed| placed.event.kind == R && placed.event.engine == engine);
    own.skip(earlier).next().and_then(|placed| placed.number).expect("a read has a slot") as u32
}
