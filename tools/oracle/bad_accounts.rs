//! Texts that are no account of B1, each with what the judge has to say of it.

/// Lines that stand under a true count of them.
const COUNTED: [(&str, &str); 10] = [
    // the order of issue
    (
        "1 - W 1 1 1\n2 - W 1 0 7\n3 0 R 2 0 0\n4 1 R 2 1 1\n5 1 R 2 0 0\n6 2 R 2 0 7\n",
        "place 3: engine 2 reads 0 at address 0 where a plain memory has 7",
    ),
    // a read before the write that it reads
    (
        "1 0 R 2 0 0\n2 1 W 1 1 1\n3 1 R 2 1 1\n4 1 R 2 0 0\n5 2 R 2 0 7\n6 2 W 1 0 7\n",
        "place 5: engine 2 reads 7 at address 0 where a plain memory has 0",
    ),
    // the same read, made to give what a plain memory has there
    (
        "1 0 R 2 0 0\n2 1 W 1 1 1\n3 1 R 2 1 1\n4 1 R 2 0 0\n5 1 R 2 0 0\n6 2 W 1 0 7\n",
        "engine 2: its 4 events in the account are not its 4 in the run, in its order",
    ),
    // a read with other data
    (
        "1 0 R 2 0 0\n2 1 W 1 1 1\n3 1 R 2 1 5\n4 1 R 2 0 0\n5 2 W 1 0 7\n6 2 R 2 0 7\n",
        "engine 2: its 4 events in the account are not its 4 in the run, in its order",
    ),
    // two reads of one engine exchanged
    (
        "1 0 R 2 0 0\n2 1 W 1 1 1\n3 1 R 2 0 0\n4 1 R 2 1 1\n5 2 W 1 0 7\n6 2 R 2 0 7\n",
        "engine 2: its 4 events in the account are not its 4 in the run, in its order",
    ),
    // a read left out
    (
        "1 0 R 2 0 0\n2 1 W 1 1 1\n3 1 R 2 1 1\n4 2 W 1 0 7\n5 2 R 2 0 7\n",
        "engine 2: its 3 events in the account are not its 4 in the run, in its order",
    ),
    // a write twice
    (
        "1 0 R 2 0 0\n2 1 W 1 1 1\n3 1 R 2 1 1\n4 1 R 2 0 0\n5 2 W 1 0 7\n6 2 W 1 0 7\n7 2 R 2 0 7\n",
        "engine 1: its 3 events in the account are not its 2 in the run, in its order",
    ),
    // an engine and an address that B1 has not
    (
        "1 0 R 2 0 0\n2 1 W 1 1 1\n3 1 R 2 1 1\n4 1 R 2 0 0\n5 2 W 1 0 7\n6 2 R 2 0 7\n7 3 W 255 255 7\n",
        "engine 255: its 1 events in the account are not its 0 in the run, in its order",
    ),
    // a step that is no event of an account, and a number that is not printed so
    ("1 0 R 2 0 0\n2 1 MW 1 1 1\n", "line of place 2 is not one of an account: '2 1 MW 1 1 1'"),
    ("1 0 R 2 0 +0\n", "line of place 1 is not one of an account: '1 0 R 2 0 +0'"),
];

/// Whole texts.
const WHOLE: [(&[u8], &str); 6] = [
    (b"", "nothing was printed"),
    (b"\xff\n", "the account is no text"),
    (b"refused 31\n", "'refused 31' is no line of counts"),
    (b"some events 0 here\n", "'some events 0 here' is no line of counts"),
    (b"accepted 14 refused 2 events 6 settled 1\n", "'accepted 14 refused 2 events 6 settled 1' before 0 events"),
    (
        b"accepted 14 refused 2 events 1 settled 1\n2 0 R 2 0 0\n",
        "line of place 1 is not one of an account: '2 0 R 2 0 0'",
    ),
];

pub fn of_b1() -> Vec<(Vec<u8>, &'static str)> {
    let text = |lines: &str| format!("accepted 14 refused 2 events {} settled 1\n{lines}", lines.lines().count());
    let counted = COUNTED.iter().map(|(lines, reason)| (text(lines).into_bytes(), *reason));
    counted.chain(WHOLE.iter().map(|(text, reason)| (text.to_vec(), *reason))).collect()
}
