//! scribe: the bench people's papers. It turns lists into text and back, puts words to refusals and
//! draws pictures. It knows no rule of the store: what happened is always what the proved program said.

mod list;
mod panel;
mod picture;
mod shown;
mod svg;
mod take;
mod text;
mod words;

use std::io::{Read, Write};
use std::process::ExitCode;

const USAGE: &str = "usage: scribe COMMAND [FILE]
Reads FILE, or standard input where none is given, and writes to standard output.
  list      a readable text: the list's bytes
  text      a list: its readable text
  take      a list or its text, told apart by content: the list's bytes
  words     what 'show' or 'account' prints: the same with the refusals' words
  picture   what 'show' prints: a picture, as SVG
Example: scribe list lists/B1.txt > B1.list
Status: 0; 1 if the picture's list was refused; 2 if the input is not what the command takes.";

/// No text of 2,048 actions is nearly as long, and an input with no end must not be read for ever.
const LONGEST_INPUT: u64 = 4 << 20;

/// Why nothing is written: the status and one line for standard error.
pub struct Failure {
    pub status: u8,
    pub reason: String,
}

impl From<String> for Failure {
    fn from(reason: String) -> Failure {
        Failure { status: 2, reason }
    }
}

fn input(file: Option<&String>) -> Result<Vec<u8>, String> {
    let mut bytes = Vec::new();
    let name = file.map_or("standard input", |path| path);
    let told = |error: std::io::Error| format!("{name}: {error}");
    let source: Box<dyn Read> = match file {
        Some(path) => Box::new(std::fs::File::open(path).map_err(told)?),
        None => Box::new(std::io::stdin()),
    };
    source.take(LONGEST_INPUT).read_to_end(&mut bytes).map_err(told)?;
    Ok(bytes)
}

/// What a command makes of its input. Nothing is written before all of it is made.
fn made(command: &str, bytes: &[u8]) -> Result<Vec<u8>, Failure> {
    match command {
        "list" => Ok(text::to_list(&take::as_text(bytes)?)?),
        "text" => Ok(text::from_list(bytes)?.into_bytes()),
        "take" => Ok(take::list_of(bytes)?),
        "words" => Ok(words::with_words(&take::as_text(bytes)?).into_bytes()),
        "picture" => Ok(picture::picture(&shown::read(&take::as_text(bytes)?)?)?.into_bytes()),
        _ => Err(Failure::from(USAGE.to_string())),
    }
}

fn run(words: &[String]) -> Result<(), Failure> {
    let (command, file) = match words {
        [command] => (command, None),
        [command, file] => (command, Some(file)),
        _ => return Err(Failure::from(USAGE.to_string())),
    };
    if command == "--help" || command == "-h" {
        println!("{USAGE}");
        return Ok(());
    }
    if !["list", "text", "take", "words", "picture"].contains(&command.as_str()) {
        return Err(Failure::from(USAGE.to_string()));
    }
    let output = made(command, &input(file)?)?;
    std::io::stdout().write_all(&output).map_err(|error| Failure::from(format!("standard output: {error}")))
}

fn main() -> ExitCode {
    let words: Vec<String> = std::env::args().skip(1).collect();
    match run(&words) {
        Ok(()) => ExitCode::SUCCESS,
        Err(failure) => {
            eprintln!("scribe: {}", failure.reason);
            ExitCode::from(failure.status)
        }
    }
}
