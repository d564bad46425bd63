//! The sample with the same thing done to each of its seven lines in turn.
use super::{sample_lines, Listing};

/// What stands in place of a line and its newline; the line is given without it.
type Change = fn(&[u8]) -> Vec<u8>;

/// The line with its last byte changed.
fn last_changed(line: &[u8], change: fn(u8) -> u8) -> Vec<u8> {
    let (last, front) = line.split_last().expect("a line that is not empty");
    [front, &[change(*last)], b"\n"].concat()
}

const CHANGES: [(&str, Change); 12] = [
    ("carriage-return", |line| [line, b"\r\n"].concat()),
    ("nul-after", |line| [line, b"\0\n"].concat()),
    ("nul-in", |line| last_changed(line, |_| 0)),
    ("utf8", |line| [&line[..line.len() - 2], "é\n".as_bytes()].concat()),
    ("ff", |line| last_changed(line, |_| 0xff)),
    ("high-bit", |line| last_changed(line, |byte| byte | 0x80)),
    ("space-before", |line| [b" ", line, b"\n"].concat()),
    ("space-after", |line| [line, b" \n"].concat()),
    ("tab-after", |line| [line, b"\t\n"].concat()),
    ("blank-before", |line| [b"\n", line, b"\n"].concat()),
    ("twice", |line| [line, b"\n", line, b"\n"].concat()),
    ("missing", |_| Vec::new()),
];

/// Each change at each line, and each two neighbours in the other order.
pub fn lines() -> Vec<Listing> {
    let lines = sample_lines();
    let mut listings = Vec::new();
    for at in 0..lines.len() {
        for (name, change) in CHANGES {
            let mut lines = lines.clone();
            lines[at] = change(&lines[at][..lines[at].len() - 1]);
            listings.push((format!("{name}-{}", at + 1), lines.concat()));
        }
    }
    for at in 1..lines.len() {
        let mut lines = lines.clone();
        lines.swap(at - 1, at);
        listings.push((format!("swapped-{at}"), lines.concat()));
    }
    listings
}
