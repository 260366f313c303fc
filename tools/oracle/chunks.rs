//! Chunks: how many lists stand in one input, and what `replay` prints for them.

use crate::list::HANDED;
use crate::run;

/// The chunks of an input, and whether its last one is cut short.
pub fn split(mut input: &[u8]) -> (Vec<&[u8]>, bool) {
    let mut chunks = Vec::new();
    while !input.is_empty() {
        let Some((count, rest)) = input.split_first_chunk::<4>() else { return (chunks, true) };
        let count = u32::from_be_bytes(*count) as usize;
        if rest.len() < count {
            return (chunks, true);
        }
        chunks.push(&rest[..count]);
        input = &rest[count..];
    }
    (chunks, false)
}

pub fn join(chunks: &[Vec<u8>]) -> Vec<u8> {
    let mut bytes = Vec::new();
    for chunk in chunks {
        bytes.extend((chunk.len() as u32).to_be_bytes());
        bytes.extend(chunk);
    }
    bytes
}

/// FNV-1a of 64 bits.
pub fn fnv(bytes: &[u8]) -> u64 {
    bytes.iter().fold(0xcbf2_9ce4_8422_2325, |hash, byte| (hash ^ *byte as u64).wrapping_mul(0x0000_0100_0000_01b3))
}

/// What `replay` prints for one chunk.
pub fn replay_one(chunk: &[u8]) -> String {
    let given = &chunk[..chunk.len().min(HANDED)];
    let trace = run::run(given).map_or(Vec::new(), |run| run.trace_bytes());
    format!("{}trace {:016x}\n", run::answer(given), fnv(&trace))
}

/// What is printed after the last chunk that is whole.
pub fn end_text(cut_short: bool) -> &'static str {
    if cut_short {
        "cut short\n"
    } else {
        ""
    }
}

pub fn replay(input: &[u8]) -> String {
    let (chunks, cut_short) = split(input);
    chunks.iter().map(|chunk| replay_one(chunk)).collect::<String>() + end_text(cut_short)
}

/// What stands before each trace line of what `replay` printed, and what stands after the last one.
pub fn split_printed(printed: &[u8]) -> (Vec<&[u8]>, &[u8]) {
    let mut accounts = Vec::new();
    let (mut part_begin, mut line_begin) = (0, 0);
    for line in printed.split_inclusive(|byte| *byte == b'\n') {
        let line_end = line_begin + line.len();
        if is_trace_line(line) {
            accounts.push(&printed[part_begin..line_begin]);
            part_begin = line_end;
        }
        line_begin = line_end;
    }
    (accounts, &printed[part_begin..])
}

/// Anything else stays in its part, where it is no line of an account.
fn is_trace_line(line: &[u8]) -> bool {
    let hash = line.strip_prefix(b"trace ").and_then(|rest| rest.strip_suffix(b"\n"));
    hash.is_some_and(|hash| hash.len() == 16 && hash.iter().all(u8::is_ascii_hexdigit))
}
