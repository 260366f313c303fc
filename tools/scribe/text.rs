//! The readable text of a list: a head line, then one action to a line, with comments after '#'.

use crate::list::{number, List, HANDED, MOST_ACTIONS, SIZES};
use crate::words;

/// The kinds in their order, from 1, each with the fields that its words name after the engine.
const KINDS: [(&str, &[Field]); 6] = [
    ("R", &[Field::Address]),
    ("W", &[Field::Address, Field::Data]),
    ("MW", &[]),
    ("MR", &[Field::Address]),
    ("CU", &[]),
    ("CI", &[Field::Address]),
];

#[derive(Clone, Copy, PartialEq)]
enum Field {
    Engine,
    Address,
    Data,
}

impl Field {
    /// The field's name, its first byte in a record and its length.
    fn about(self) -> (&'static str, usize, usize) {
        match self {
            Field::Engine => ("an engine", 1, 1),
            Field::Address => ("an address", 3, 1),
            Field::Data => ("data", 4, 4),
        }
    }
}

/// The words of one line, with what a complaint about them needs.
struct Line<'a> {
    number: usize,
    words: Vec<&'a str>,
    taken: usize,
}

impl<'a> Line<'a> {
    fn complain<T>(&self, word: &str, reason: &str) -> Result<T, String> {
        Err(format!("line {}: '{word}': {reason}", self.number))
    }

    /// The next word; where there is none, the complaint names the last one.
    fn next(&mut self, wanted: &str) -> Result<&'a str, String> {
        let Some(word) = self.words.get(self.taken) else {
            return self.complain(self.words[self.taken - 1], &format!("{wanted} is missing after it"));
        };
        self.taken += 1;
        Ok(word)
    }

    fn next_number(&mut self, wanted: &str, least: u32, most: u32) -> Result<u32, String> {
        let word = self.next(wanted)?;
        let digits_only = word.bytes().all(|byte| byte.is_ascii_digit());
        match word.parse::<u32>() {
            Ok(value) if digits_only && (least..=most).contains(&value) => Ok(value),
            _ => self.complain(word, &format!("{wanted} is a number from {least} to {most}")),
        }
    }

    fn end(&self) -> Result<(), String> {
        match self.words.get(self.taken) {
            Some(word) => self.complain(word, "nothing more stands on this line"),
            None => Ok(()),
        }
    }
}

fn lines(text: &str) -> Vec<Line<'_>> {
    let without_comment = |line: &'_ str| line.len().min(line.find('#').unwrap_or(line.len()));
    let numbered = text.lines().enumerate().map(|(before, line)| {
        let words = line[..without_comment(line)].split_whitespace().collect();
        Line { number: before + 1, words, taken: 0 }
    });
    numbered.filter(|line| !line.words.is_empty()).collect()
}

/// Text to list; a text that is none is told by line, word and reason.
pub fn to_list(text: &str) -> Result<Vec<u8>, String> {
    let mut lines = lines(text).into_iter();
    let Some(mut head) = lines.next() else {
        return Err("line 1: '': a head line is missing, as 'engines 2 addresses 2 depth 2 memory 0 0'".to_string());
    };
    let mut list = read_head(&mut head)?;
    for mut line in lines {
        let action = read_action(&mut line)?;
        if list.actions.len() == MOST_ACTIONS {
            return line.complain(line.words[0], "a list has at most 2,048 actions, and this is one more");
        }
        list.actions.push(action);
    }
    Ok(list.to_bytes())
}

fn expect_word(line: &mut Line, wanted: &str) -> Result<(), String> {
    let word = line.next(&format!("'{wanted}'"))?;
    if word != wanted {
        return line.complain(
            word,
            &format!("'{wanted}' stands here in a head line, as 'engines 2 addresses 2 depth 2 memory 0 0'"),
        );
    }
    Ok(())
}

fn read_head(line: &mut Line) -> Result<List, String> {
    let mut sizes = [0; 3];
    for (place, (word, most)) in SIZES.iter().enumerate() {
        expect_word(line, word)?;
        sizes[place] = line.next_number(&format!("the number of '{word}'"), 1, *most as u32)? as u8;
    }
    expect_word(line, "memory")?;
    let mut memory = Vec::new();
    for address in 0..sizes[1] {
        memory.push(line.next_number(&format!("memory's value at address {address}"), 0, u32::MAX)?);
    }
    line.end()?;
    Ok(List { sizes, memory, actions: Vec::new() })
}

fn read_action(line: &mut Line) -> Result<[u8; 8], String> {
    let letters = line.next("a step")?;
    let action = if letters == "bytes" { read_bytes(line)? } else { read_step(line, letters)? };
    line.end()?;
    Ok(action)
}

/// An action that no words can say stands as its eight bytes.
fn read_bytes(line: &mut Line) -> Result<[u8; 8], String> {
    let mut action = [0; 8];
    for byte in &mut action {
        let word = line.next("a byte, and there are eight of them,")?;
        let two_digits = word.len() == 2 && word.bytes().all(|letter| letter.is_ascii_hexdigit());
        match u8::from_str_radix(word, 16) {
            Ok(value) if two_digits => *byte = value,
            _ => return line.complain(word, "a byte is two hexadecimal digits"),
        }
    }
    Ok(action)
}

/// An engine or an address that the list has not is no fault of a text: its step is refused when run.
fn read_step(line: &mut Line, letters: &str) -> Result<[u8; 8], String> {
    let Some(before) = KINDS.iter().position(|(name, _)| *name == letters) else {
        return line.complain(letters, "no step; they are R, W, MW, MR, CU, CI, and 'bytes' for any eight bytes");
    };
    let mut action = [0; 8];
    action[0] = before as u8 + 1;
    for field in [&[Field::Engine], KINDS[before].1].concat() {
        let (name, first, length) = field.about();
        let most = if length == 1 { u8::MAX as u32 } else { u32::MAX };
        let value = line.next_number(name, 0, most)?;
        action[first..first + length].copy_from_slice(&value.to_be_bytes()[4 - length..]);
    }
    Ok(action)
}

/// List to text; a list that the reader refuses is told by its number and the number's words.
pub fn from_list(bytes: &[u8]) -> Result<String, String> {
    let told = |number: u8| words::with_words(&format!("no list: refused {number}")).trim_end().to_string();
    // as the programs do, so that the number is theirs
    let list = List::from_bytes(&bytes[..bytes.len().min(HANDED)]).map_err(told)?;
    let sizes: String = SIZES.iter().zip(list.sizes).map(|((word, _), size)| format!("{word} {size} ")).collect();
    let memory: String = list.memory.iter().map(|value| format!(" {value}")).collect();
    let actions: String = list.actions.iter().map(|action| action_text(action) + "\n").collect();
    Ok(format!("{sizes}memory{memory}\n{actions}"))
}

fn action_text(action: &[u8; 8]) -> String {
    let kind = (action[0] as usize).checked_sub(1).and_then(|before| KINDS.get(before));
    let said = kind.and_then(|(letters, fields)| step_text(letters, fields, action));
    said.unwrap_or_else(|| "bytes".to_string() + &action.iter().map(|byte| format!(" {byte:02x}")).collect::<String>())
}

/// A step in its words; none if a field has a value that those words do not name.
fn step_text(letters: &str, fields: &[Field], action: &[u8; 8]) -> Option<String> {
    let unnamed_data = !fields.contains(&Field::Data) && number(&action[4..]) != 0;
    let unnamed_address = !fields.contains(&Field::Address) && action[3] != 0;
    if action[2] != 0 || unnamed_address || unnamed_data {
        return None;
    }
    let mut text = format!("{letters} {}", action[1]);
    for field in fields {
        let (_, first, length) = field.about();
        let value = action[first..first + length].iter().fold(0u32, |value, byte| value << 8 | *byte as u32);
        text += &format!(" {value}");
    }
    Some(text)
}
