//! The refusals' numbers in the words of document 01. They stand here and nowhere else.

const WORDS: [(u8, &str); 25] = [
    (1, "fewer than 8 bytes"),
    (2, "length field differs from total minus 4"),
    (3, "version"),
    (4, "engines"),
    (5, "addresses"),
    (6, "depth"),
    (7, "less than 4m bytes after the first 8"),
    (8, "the rest no multiple of 8"),
    (9, "more than 2,048 actions"),
    (10, "the memory table has not m entries"),
    (
        17,
        "state unsound: a size out of range, a queue longer than the depth, or an entry in a queue \
         with origin above the engine count, or address not below m",
    ),
    (11, "kind not 1 to 6"),
    (12, "engine not 1 to the engine count"),
    (13, "address not below m (R, W, MR, CI)"),
    (14, "a field that the kind holds at 0 is not 0"),
    (21, "R: out queue not empty"),
    (22, "R: own entry waits in the in queue"),
    (23, "R: address not in cache"),
    (24, "W: out queue full"),
    (25, "MW: out queue empty"),
    (26, "MW: some in queue full"),
    (27, "MR: in queue full"),
    (28, "CU: in queue empty"),
    (29, "trace buffer shorter than 8 bytes an action"),
    (30, "account buffer shorter than 12 bytes an account event"),
];

pub fn words_of(number: u8) -> Option<&'static str> {
    WORDS.iter().find(|(each, _)| *each == number).map(|(_, words)| *words)
}

/// Every line that ends in a refusal, with its words; all other lines as they are.
pub fn with_words(text: &str) -> String {
    text.lines().map(|line| with_its_words(line) + "\n").collect()
}

/// The line of counts has 'refused' too, and is left alone: it does not end there.
fn with_its_words(line: &str) -> String {
    let refusal = line.rsplit_once("refused ").and_then(|(_, number)| number.parse().ok());
    match refusal.and_then(words_of) {
        Some(words) => format!("{line} ({words})"),
        None => line.to_string(),
    }
}
